// The yardstick of `ls_bench decode`: CharLS, which decodes the same codestreams on one thread.
//
//     charls TIMES FILE..
//
// FILE is joined codestreams, without interleaving. Each is decoded TIMES times, from memory into memory that is there, after
// once before the clock starts. Prints to standard output of each file its name, how many frames it has, and the FNV-1a of
// their samples (64 bits; of two bytes each, the upper one first, pixel by pixel), and to standard error how many nanoseconds
// a sample took, and how many bits it has on average. In colour a pixel has three samples.
#include <charls/charls.h>

#include <chrono>
#include <cstdint>
#include <cstdio>
#include <cstdlib>
#include <cstring>
#include <exception>
#include <fstream>
#include <iterator>
#include <stdexcept>
#include <vector>

namespace {

using Bytes = std::vector<uint8_t>;

// Where the codestream that begins at `at` ends: behind its EOI. Segments are passed over by their lengths, and data ends
// before the first FF that no stuffed bit follows (T.87 A.1).
size_t end_of(const Bytes &file, size_t at) {
    const auto byte = [&](size_t place) {
        if (place >= file.size()) throw std::runtime_error("truncated");
        return file[place];
    };
    for (at += 2; byte(at + 1) != 0xd9;) {
        const bool is_scan = byte(at + 1) == 0xda;
        at += 2 + (byte(at + 2) << 8 | byte(at + 3));
        while (is_scan && !(byte(at) == 0xff && byte(at + 1) >= 0x80)) ++at;
    }
    return at + 2;
}

void decode(const Bytes &codestream, Bytes &samples) {
    const charls::jpegls_decoder decoder(codestream, true);
    decoder.decode(samples);
}

struct Sum {
    uint64_t fnv = 0xcbf29ce484222325;

    void add(uint8_t byte) { fnv = (fnv ^ byte) * 0x100000001b3; }

    // Of samples that CharLS has component by component, each in a byte or in two of this machine.
    void add(const charls::frame_info &frame, const Bytes &samples) {
        const size_t pixels = size_t{frame.width} * frame.height, components = frame.component_count;
        const size_t size = frame.bits_per_sample <= 8 ? 1 : 2;
        for (size_t pixel = 0; pixel < pixels; ++pixel) {
            for (size_t component = 0; component < components; ++component) {
                const uint8_t *const place = &samples[(component * pixels + pixel) * size];
                uint16_t sample = *place;
                if (size == 2) std::memcpy(&sample, place, 2);
                add(sample >> 8);
                add(sample & 0xff);
            }
        }
    }
};

void measure(const char *name, size_t times) {
    using Clock = std::chrono::steady_clock;
    std::ifstream opened(name, std::ios::binary);
    if (!opened) throw std::runtime_error("can't open");
    const Bytes file((std::istreambuf_iterator<char>(opened)), std::istreambuf_iterator<char>());
    auto took = Clock::duration::zero();
    size_t frames = 0, count = 0;
    Sum sum;
    for (size_t at = 0, end; at < file.size(); at = end) {
        end = end_of(file, at);
        const Bytes codestream(file.begin() + at, file.begin() + end);
        const charls::jpegls_decoder decoder(codestream, true);
        const charls::frame_info frame = decoder.frame_info();
        Bytes samples(decoder.destination_size());
        decode(codestream, samples);
        const auto start = Clock::now();
        for (size_t time = 0; time < times; ++time) decode(codestream, samples);
        took += Clock::now() - start;
        ++frames;
        count += size_t{frame.width} * frame.height * frame.component_count;
        sum.add(frame, samples);
    }
    if (frames == 0) throw std::runtime_error("no codestream");
    const auto nanoseconds = std::chrono::duration_cast<std::chrono::nanoseconds>(took).count();
    std::printf("%s %zu %016llx\n", name, frames, static_cast<unsigned long long>(sum.fnv));
    std::fprintf(stderr, "%s: %.3f ns a sample\n", name, static_cast<double>(nanoseconds) / static_cast<double>(count) / times);
    std::fprintf(stderr, "%s: %.2f bits a sample\n", name, 8.0 * static_cast<double>(file.size()) / static_cast<double>(count));
}

} // namespace

int main(int argc, char **argv) {
    const size_t times = argc > 2 ? std::strtoull(argv[1], nullptr, 10) : 0;
    if (times == 0) {
        std::fprintf(stderr, "charls TIMES FILE..\n");
        return 2;
    }
    for (int at = 2; at < argc; ++at) {
        try {
            measure(argv[at], times);
        } catch (const std::exception &error) {
            std::fprintf(stderr, "charls: %s: %s\n", argv[at], error.what());
            return 1;
        }
    }
}
