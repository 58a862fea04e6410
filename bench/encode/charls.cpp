// The yardstick of `ls_bench frames`: CharLS, which codes the same frames on one thread, without loss and without
// interleaving.
//
//     charls TIMES FILM..
//     charls code FILM
//
// FILM is joined binary Netpbm images. Each is coded TIMES times, into memory that is there. Prints to standard output
// of each film its name and how many bytes the codestreams of its images have, and to standard error how many
// nanoseconds a sample took, and how many bits it has on average. In colour a pixel has three samples.
//
// Before the clock starts, each component's samples stand one behind the other in the machine's own order of bytes, as
// CharLS wants them. The second form writes the codestreams of a film's images to standard output, joined, and measures nothing.
#include <charls/charls.h>

#include <chrono>
#include <cstdint>
#include <cstdio>
#include <cstdlib>
#include <cstring>
#include <exception>
#include <fstream>
#include <iterator>
#include <stdexcept>
#include <string>
#include <vector>

namespace {

using Bytes = std::vector<uint8_t>;

// An image as CharLS takes it.
struct Image {
    charls::frame_info frame;
    Bytes samples;

    size_t count() const { return size_t{frame.width} * frame.height * frame.component_count; }
};

std::vector<Image> read_film(const char *name) {
    std::ifstream opened(name, std::ios::binary);
    if (!opened) throw std::runtime_error("can't open");
    const Bytes film((std::istreambuf_iterator<char>(opened)), std::istreambuf_iterator<char>());
    size_t at = 0;
    const auto need = [&](size_t count) {
        if (film.size() - at < count) throw std::runtime_error("truncated");
    };
    const auto next = [&] {
        need(1);
        return film[at++];
    };
    // The number in front, behind white space and comments, and one byte of white space behind it.
    const auto number = [&] {
        uint8_t byte = next();
        for (; byte <= ' ' || byte == '#'; byte = next()) {
            while (byte == '#' && next() != '\n') continue;
        }
        uint32_t number = 0;
        for (; byte > ' '; byte = next()) number = number * 10 + byte - '0';
        return number;
    };
    std::vector<Image> images;
    while (at < film.size()) {
        if (next() != 'P') throw std::runtime_error("bad magic");
        Image image{};
        image.frame.component_count = number() == 6 ? 3 : 1;
        image.frame.width = number();
        image.frame.height = number();
        const uint32_t maxval = number();
        image.frame.bits_per_sample = 2;
        while (maxval >> image.frame.bits_per_sample != 0) ++image.frame.bits_per_sample;
        // CharLS would code other maxvals with another RANGE than T.87 (A.2.1).
        if (maxval != (1u << image.frame.bits_per_sample) - 1) throw std::runtime_error("maxval isn't 2^P - 1");

        const size_t components = image.frame.component_count, pixels = image.count() / components;
        const size_t size = maxval < 256 ? 1 : 2;
        need(image.count() * size);
        image.samples.resize(image.count() * size);
        for (size_t pixel = 0; pixel < pixels; ++pixel) {
            for (size_t component = 0; component < components; ++component, at += size) {
                const uint16_t sample = size == 1 ? film[at] : film[at] << 8 | film[at + 1];
                const auto place = &image.samples[(component * pixels + pixel) * size];
                if (size == 1) *place = sample;
                else std::memcpy(place, &sample, 2);
            }
        }
        images.push_back(std::move(image));
    }
    return images;
}

// How many bytes the codestream has. An LSE with the default parameters isn't wanted.
size_t encode(const Image &image, Bytes &room) {
    charls::jpegls_encoder encoder;
    encoder.frame_info(image.frame);
    encoder.near_lossless(0);
    encoder.interleave_mode(charls::interleave_mode::none);
    encoder.encoding_options(charls::encoding_options::none);
    encoder.destination(room);
    return encoder.encode(image.samples);
}

// A word has 64 bits at most (A.2.1), and a stuffed bit follows after 15 others at the soonest. All of the room is written to.
Bytes room_for(const Image &image) { return Bytes(image.count() * 9 + 4096, 1); }

void code(const char *name) {
    for (const Image &image : read_film(name)) {
        Bytes room = room_for(image);
        const size_t size = encode(image, room);
        if (std::fwrite(room.data(), 1, size, stdout) != size) throw std::runtime_error("can't write");
    }
    if (std::fflush(stdout) != 0) throw std::runtime_error("can't write");
}

void measure(const char *name, size_t times) {
    using Clock = std::chrono::steady_clock;
    const std::vector<Image> images = read_film(name);
    auto took = Clock::duration::zero();
    size_t samples = 0, bytes = 0;
    for (const Image &image : images) {
        samples += image.count();
        Bytes room = room_for(image);
        size_t size = 0;
        const auto start = Clock::now();
        for (size_t time = 0; time < times; ++time) size = encode(image, room);
        took += Clock::now() - start;
        bytes += size;
    }
    if (samples == 0) throw std::runtime_error("no image");
    const double count = static_cast<double>(samples);
    const auto nanoseconds = std::chrono::duration_cast<std::chrono::nanoseconds>(took).count();
    std::printf("%s %zu\n", name, bytes);
    std::fprintf(stderr, "%s: %.3f ns a sample\n", name, static_cast<double>(nanoseconds) / count / times);
    std::fprintf(stderr, "%s: %.2f bits a sample\n", name, static_cast<double>(8 * bytes) / count);
}

} // namespace

int main(int argc, char **argv) {
    const bool is_to_code = argc == 3 && std::string(argv[1]) == "code";
    const size_t times = argc > 2 ? std::strtoull(argv[1], nullptr, 10) : 0;
    if (times == 0 && !is_to_code) {
        std::fprintf(stderr, "charls TIMES FILM..\ncharls code FILM\n");
        return 2;
    }
    for (int at = 2; at < argc; ++at) {
        try {
            if (is_to_code) code(argv[at]);
            else measure(argv[at], times);
        } catch (const std::exception &error) {
            std::fprintf(stderr, "charls: %s: %s\n", argv[at], error.what());
            return 1;
        }
    }
}
