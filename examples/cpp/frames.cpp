// Lists the frames of a recording, each by its form and its length in bytes: frames FILE.jls. In the checkout, after
// library/build:
//
//     export PKG_CONFIG_PATH=$PWD/out/library LD_LIBRARY_PATH=$PWD/out/library
//     c++ -std=c++17 -o frames examples/cpp/frames.cpp $(pkg-config --cflags --libs jlsrec) && ./frames FILE.jls
#include <jlsrec.h>

#include <cstdio>
#include <fstream>
#include <iterator>
#include <stdexcept>
#include <vector>

namespace {

void check(uint32_t status, const jlsrec_fault &fault = {}) {
    if (status == JLSREC_OK) return;
    char text[80];
    jlsrec_text(status, &fault, text, sizeof text);
    throw std::runtime_error(text);
}

} // namespace

int main(int argc, char **argv) try {
    if (argc != 2) throw std::runtime_error("usage: frames FILE.jls");
    std::ifstream file(argv[1], std::ios::binary);
    const std::vector<uint8_t> bytes{std::istreambuf_iterator<char>(file), {}};
    std::vector<uint16_t> samples(1);
    std::size_t at = 0;
    for (unsigned number = 0; at < bytes.size(); number++) {
        jlsrec_form form;
        jlsrec_fault fault;
        std::size_t used;
        uint32_t status = jlsrec_decode_16(&bytes[at], bytes.size() - at, samples.data(), samples.size(), &form, &used, &fault);
        if (status == JLSREC_NO_ROOM) {
            samples.resize(std::size_t{form.components} * form.width * form.height);
            status = jlsrec_decode_16(&bytes[at], bytes.size() - at, samples.data(), samples.size(), &form, &used, &fault);
        }
        check(status, fault);
        std::printf("%u %s %u %u %u %zu\n", number, form.components == 1 ? "gray" : "color", form.width, form.height,
                    form.maxval, used);
        at += used;
    }
} catch (const std::exception &error) {
    std::fprintf(stderr, "frames: %s\n", error.what());
    return 1;
}
