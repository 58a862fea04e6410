// Prints the table of sums that the encoder's tests hold our codestreams against: of pictures that the tests draw by the same
// rules, coded by CharLS. Each sum is the FNV-1a (64 bits) of the bytes that CharLS wrote for a group of pictures, one codestream
// after the other, without loss and without interleaving.
//
// Every MAXVAL is 2^P - 1: elsewhere CharLS keeps the RANGE of 2^P, which T.87 (A.2.1) has from MAXVAL. One thing is left out of
// what CharLS writes: an LSE segment of nothing but default values, which it adds where P is over 12.
#include <charls/charls.h>

#include <array>
#include <cstdint>
#include <cstdio>
#include <cstring>
#include <stdexcept>
#include <vector>

namespace {

using Bytes = std::vector<uint8_t>;

// Numbers that look like chance (splitmix64).
struct Chance {
    uint64_t state;

    uint64_t next() {
        uint64_t mixed = state += 0x9e3779b97f4a7c15;
        mixed = (mixed ^ mixed >> 30) * 0xbf58476d1ce4e5b9;
        mixed = (mixed ^ mixed >> 27) * 0x94d049bb133111eb;
        return mixed ^ mixed >> 31;
    }

    uint16_t up_to(uint16_t most) { return next() % (uint64_t{most} + 1); }
};

enum class Picture { noise, runs, ramp, extremes };

constexpr std::array pictures{Picture::noise, Picture::runs, Picture::ramp, Picture::extremes};

std::vector<uint16_t> drawn(Chance &chance, Picture picture, uint16_t maxval, size_t count) {
    std::vector<uint16_t> samples;
    uint16_t value = 0;
    for (size_t place = 0; place < count; ++place) {
        switch (picture) {
        case Picture::noise: value = chance.up_to(maxval); break;
        case Picture::runs:
            if (chance.up_to(15) == 0) value = chance.up_to(maxval);
            break;
        case Picture::ramp: value = (place + chance.next() % 3) % (uint64_t{maxval} + 1); break;
        case Picture::extremes: value = chance.up_to(1) == 0 ? 0 : maxval; break;
        }
        samples.push_back(value);
    }
    return samples;
}

int bits_of(uint16_t maxval) {
    int bits = 2;
    while (maxval >> bits != 0) ++bits;
    return bits;
}

// What CharLS writes of pixels of one or three samples, less a superfluous LSE segment.
Bytes coded(uint32_t width, uint32_t height, int components, uint16_t maxval, const charls::jpegls_pc_parameters &parameters,
            const std::vector<uint16_t> &samples) {
    const int bits = bits_of(maxval);
    if (maxval != (1 << bits) - 1) throw std::logic_error("MAXVAL isn't 2^P - 1");
    Bytes planes;
    for (int component = 0; component < components; ++component) {
        for (size_t place = component; place < samples.size(); place += components) {
            planes.push_back(samples[place] & 0xff);
            if (bits > 8) planes.push_back(samples[place] >> 8);
        }
    }
    charls::jpegls_encoder encoder;
    encoder.frame_info({width, height, bits, components});
    encoder.near_lossless(0);
    encoder.interleave_mode(charls::interleave_mode::none);
    if (parameters.threshold1 != 0) encoder.preset_coding_parameters(parameters);
    Bytes file(samples.size() * 10 + 4096);
    encoder.destination(file);
    file.resize(encoder.encode(planes));

    Bytes kept(file.begin(), file.begin() + 2);
    size_t at = 2;
    while (file[at] == 0xff && file[at + 1] != 0xda) {
        const size_t end = at + 2 + (file[at + 2] << 8 | file[at + 3]);
        const bool superfluous = file[at + 1] == 0xf8 && parameters.threshold1 == 0;
        if (!superfluous) kept.insert(kept.end(), file.begin() + at, file.begin() + end);
        at = end;
    }
    kept.insert(kept.end(), file.begin() + at, file.end());
    return kept;
}

struct Sum {
    uint64_t bytes = 0, fnv = 0xcbf29ce484222325;

    void add(const Bytes &more) {
        bytes += more.size();
        for (const uint8_t byte : more) fnv = (fnv ^ byte) * 0x100000001b3;
    }
};

} // namespace

int main() {
    const charls::jpegls_pc_parameters by_default{};
    std::puts("//! The sums of what CharLS writes of the pictures that the tests draw; made by `interop/sums`.\nuse crate::testing::Picture;\n");

    std::puts("/// MAXVAL, T1, T2, T3 and RESET, or four zeros for the defaults; the length and the FNV-1a of the codestreams of\n"
              "/// every kind of picture in every small size, joined.");
    std::puts("pub const SMALL: [(u16, [u16; 4], u64, u64); 28] = [");
    Chance chance{1};
    for (const uint16_t maxval : {3, 7, 127, 255, 1023, 4095, 65535}) {
        const uint16_t middle = maxval / 2 + 1, most = maxval > 255 ? maxval : 255;
        const std::array<std::array<uint16_t, 4>, 4> chosen{{
            {middle, middle, middle, 64}, {middle, middle, maxval, 3}, {1, middle, middle, most}, {0, 0, 0, 0}}};
        for (const auto &[t1, t2, t3, reset] : chosen) {
            Sum sum;
            for (const Picture picture : pictures) {
                for (const auto &[width, height] : {std::pair{1u, 1u}, {1u, 9u}, {13u, 1u}, {23u, 11u}}) {
                    const auto samples = drawn(chance, picture, maxval, size_t{width} * height);
                    sum.add(coded(width, height, 1, maxval, {maxval, t1, t2, t3, reset}, samples));
                }
            }
            std::printf("    (%u, [%u, %u, %u, %u], %llu, 0x%016llx),\n", maxval, t1, t2, t3, reset,
                        static_cast<unsigned long long>(sum.bytes), static_cast<unsigned long long>(sum.fnv));
        }
    }
    std::puts("];\n");

    std::puts("/// Components, width, height, MAXVAL and the kind of picture of larger frames with the default parameters; the length\n"
              "/// and the FNV-1a of the codestream.");
    std::puts("pub const LARGE: [(u8, u16, u16, u16, Picture, u64, u64); 14] = [");
    const char *const names[] = {"Noise", "Runs", "Ramp", "Extremes"};
    const auto large = [&](int components, uint32_t width, uint32_t height, uint16_t maxval, Picture picture) {
        chance = {2};
        const auto samples = drawn(chance, picture, maxval, size_t{width} * height * components);
        Sum sum;
        sum.add(coded(width, height, components, maxval, by_default, samples));
        std::printf("    (%d, %u, %u, %u, Picture::%s, %llu, 0x%016llx),\n", components, width, height, maxval,
                    names[static_cast<int>(picture)], static_cast<unsigned long long>(sum.bytes),
                    static_cast<unsigned long long>(sum.fnv));
    };
    for (const uint16_t maxval : {3, 255, 65535}) {
        for (const Picture picture : pictures) large(3, 61, 37, maxval, picture);
    }
    large(1, 1, 65535, 255, Picture::ramp);
    large(1, 1024, 1025, 255, Picture::runs);
    std::puts("];\n");

    std::puts("/// The last sample of a line of 65,535 samples, all others of which are 0: with 0 the longest run there is, with 7 the\n"
              "/// longest that is interrupted, so that RUNindex comes to its end; the length and the FNV-1a of the codestream.");
    std::puts("pub const LONGEST_RUNS: [(u16, u64, u64); 2] = [");
    for (const uint16_t last : {0, 7}) {
        std::vector<uint16_t> samples(65535);
        samples.back() = last;
        Sum sum;
        sum.add(coded(65535, 1, 1, 255, by_default, samples));
        std::printf("    (%u, %llu, 0x%016llx),\n", last, static_cast<unsigned long long>(sum.bytes),
                    static_cast<unsigned long long>(sum.fnv));
    }
    std::puts("];");
}
