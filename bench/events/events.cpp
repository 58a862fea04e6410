// The twin of `ls_bench events`: the same picture, whose samples are coded by the same counters and accepted back. It
// prints the same lines to standard output, and its times to standard error. It is the yardstick that the proved program
// is measured by.
//
//     events [TIMES [SIDE]]
//
// Sections are those of T.87. No bits are written: of each sample come its Golomb parameter, the most bits of its word,
// and the value that stands for its error.
#include <algorithm>
#include <chrono>
#include <cstdint>
#include <cstdio>
#include <cstdlib>
#include <optional>
#include <vector>

namespace {

// --------------------------------------------------------------------------------------------------------- the picture

// A number for a place, one in each stream: the number of splitmix64 that is so far from its start at 0.
uint64_t draw(uint64_t stream, uint64_t x, uint64_t y) {
    const uint64_t place = stream << 56 ^ y << 28 ^ x;
    uint64_t z = (place + 1) * 0x9e3779b97f4a7c15;
    z = (z ^ z >> 30) * 0xbf58476d1ce4e5b9;
    z = (z ^ z >> 27) * 0x94d049bb133111eb;
    return z ^ z >> 31;
}

// A field of 0 to 255, drawn at the corners of squares of 2^order samples, and between them by their distances.
uint64_t smooth(uint64_t stream, unsigned order, uint64_t x, uint64_t y) {
    const uint64_t side = uint64_t{1} << order, left = x >> order, top = y >> order;
    const uint64_t over = x % side, under = y % side;
    const auto corner = [&](uint64_t across, uint64_t down) { return draw(stream, left + across, top + down) % 256; };
    const auto upper = corner(0, 0) * (side - over) + corner(1, 0) * over;
    const auto lower = corner(0, 1) * (side - over) + corner(1, 1) * over;
    return (upper * (side - under) + lower * under) >> 2 * order;
}

// Two smooth fields, tilted patches that end in edges, and noise, which is of four strengths.
uint16_t sample_at(uint64_t x, uint64_t y) {
    const uint64_t broad = smooth(0, 7, x, y) * 5 / 8;
    const uint64_t fine = smooth(1, 4, x, y) / 8;
    const uint64_t patch = draw(2, (x * 3 + y) >> 8, (y * 3 - x) >> 8) % 48;
    const unsigned bits = 8u << draw(3, x >> 7, y >> 7) % 4;
    const uint64_t noise = __builtin_popcountll(draw(4, x, y) & ~uint64_t{0} >> (64 - bits));
    const uint64_t bright = broad + fine + patch + noise;
    return std::min<uint64_t>(bright - std::min<uint64_t>(bright, bits / 2), 255);
}

// Ra, Rb, Rc and Rd (Figure A.1).
struct Neighbours {
    uint16_t a, b, c, d;
};

// The samples around one, as they are at the picture's edges too (A.2.1).
Neighbours neighbours_at(uint64_t side, uint64_t x, uint64_t y) {
    if (y == 0) return {x == 0 ? uint16_t{0} : sample_at(x - 1, 0), 0, 0, 0};
    const uint16_t b = sample_at(x, y - 1);
    const uint16_t d = x + 1 < side ? sample_at(x + 1, y - 1) : b;
    if (x > 0) return {sample_at(x - 1, y), b, sample_at(x - 1, y - 1), d};
    return {b, b, y > 1 ? sample_at(0, y - 2) : uint16_t{0}, d};
}

struct Sample {
    Neighbours neighbours;
    uint16_t sample;
};

// The samples of a picture of `side` lines that are coded in regular mode, line by line (A.3).
std::vector<Sample> regular_samples(uint64_t side) {
    std::vector<Sample> samples;
    for (uint64_t y = 0; y < side; ++y) {
        for (uint64_t x = 0; x < side; ++x) {
            const Neighbours n = neighbours_at(side, x, y);
            if (n.a != n.b || n.b != n.c || n.c != n.d) samples.push_back({n, sample_at(x, y)});
        }
    }
    return samples;
}

// ---------------------------------------------------------------------------------------------------------- the events

struct Presets {
    int maxval;
    uint32_t t1, t2, t3;
    int reset;
};

// The parameters for samples of 8 bits (C.2.4.1.1). The compiler isn't to know them where they are used.
__attribute__((noipa)) Presets usual_presets() { return {255, 3, 7, 21, 64}; }

// A code word (A.5.3).
struct Word {
    uint32_t k, glimit, value;
};

// What is known of a sample by those around it.
struct Plan {
    int number, sign, prediction;
    uint32_t k;
    bool leaning;
};

class Coder {
    static constexpr int contexts = 365;

    Presets presets_;
    int range_;
    uint32_t limit_;
    int a_[contexts], b_[contexts], c_[contexts], n_[contexts];

    // `value`, with its sign changed where `sign` is -1; it is 0 elsewhere.
    static int turned(int sign, int value) { return (value ^ sign) - sign; }

    // The region of a gradient, -4 to 4 (A.3.3).
    int region(int gradient) const {
        const int sign = gradient >> 31;
        const uint32_t size = turned(sign, gradient);
        uint32_t region = size > 0;
        region += size >= presets_.t1;
        region += size >= presets_.t2;
        region += size >= presets_.t3;
        return turned(sign, region);
    }

    // One error more (A.6).
    void update(int number, int error) {
        int a = a_[number] + std::abs(error), b = b_[number] + error, c = c_[number], n = n_[number];
        if (n == presets_.reset) {
            a >>= 1;
            b >>= 1;
            n >>= 1;
        }
        ++n;
        if (b <= -n) {
            b = std::max(b + n, 1 - n);
            if (c > -128) --c;
        } else if (b > 0) {
            b = std::min(b - n, 0);
            if (c < 127) ++c;
        }
        a_[number] = a;
        b_[number] = b;
        c_[number] = c;
        n_[number] = n;
    }

public:
    explicit Coder(const Presets &presets) : presets_(presets), range_(presets.maxval + 1) {
        const int bpp = std::max(2, 32 - __builtin_clz(presets.maxval));
        limit_ = 2 * (bpp + std::max(8, bpp));
        std::fill_n(a_, contexts, std::max(2, (range_ + 32) / 64));
        std::fill_n(b_, contexts, 0);
        std::fill_n(c_, contexts, 0);
        std::fill_n(n_, contexts, 1);
    }

    // The context (A.3), the corrected prediction (A.4.1, A.4.2), the Golomb parameter (A.5.1), and whether the odd
    // values are those of the errors from 0 on (A.5.2).
    Plan plan(const Neighbours &near) const {
        const int ra = near.a, rb = near.b, rc = near.c, rd = near.d;
        const int joined = 81 * region(rd - rb) + 9 * region(rb - rc) + region(rc - ra);
        const int sign = joined >> 31;
        const int number = turned(sign, joined);
        const int low = std::min(ra, rb), high = ra + rb - low;
        const int median = std::max(low, std::min(ra + rb - rc, high));
        const int prediction = std::max(0, std::min(median + turned(sign, c_[number]), presets_.maxval));
        const uint32_t a = a_[number], n = n_[number];
        const int shorter = __builtin_clz(n) - __builtin_clz(a);
        uint32_t k = std::max(shorter, 0);
        k += n << k < a;
        return {number, sign, prediction, k, k == 0 && 2 * b_[number] <= -n_[number]};
    }

    Word code(const Neighbours &near, int sample) {
        const Plan at = plan(near);
        int error = turned(at.sign, sample - at.prediction);
        if (error < -(range_ / 2)) error += range_;
        else if (error >= (range_ + 1) / 2) error -= range_;
        update(at.number, error);
        // 2e or -2e - 1, and with `leaning` 2e + 1 or -2e - 2.
        const int value = (2 * error ^ error >> 31) ^ int{at.leaning};
        return {at.k, limit_, static_cast<uint32_t>(value)};
    }

    // The sample that the value stands for, or -1 where it stands for none.
    int accept(const Plan &at, uint32_t value) {
        const int turned_value = static_cast<int>(value) ^ int{at.leaning};
        const int error = turned_value >> 1 ^ -(turned_value & 1);
        if (error < -(range_ / 2) || error >= (range_ + 1) / 2) return -1;
        int sample = at.prediction + turned(at.sign, error);
        if (sample < 0) sample += range_;
        if (sample > presets_.maxval) sample -= range_;
        update(at.number, error);
        return sample;
    }
};

// ----------------------------------------------------------------------------------------------------- the measurement

using Clock = std::chrono::steady_clock;

// What all words come to in one number.
uint64_t code_all(const std::vector<Sample> &samples) {
    Coder coder(usual_presets());
    uint64_t sum = 0;
    for (const Sample &at : samples) {
        const Word word = coder.code(at.neighbours, at.sample);
        sum = (sum << 7 | sum >> 57) ^ (uint64_t{word.k} << 32 | word.glimit << 16 | word.value);
    }
    return sum;
}

bool all_come_back(const std::vector<Sample> &samples, const std::vector<uint32_t> &values) {
    Coder coder(usual_presets());
    const uint32_t *value = values.data();
    for (const Sample &at : samples) {
        if (coder.accept(coder.plan(at.neighbours), *value++) != at.sample) return false;
    }
    return true;
}

void tell(const char *what, Clock::duration took, size_t events) {
    if (events == 0) return;
    std::fprintf(stderr, "%s: %.3f ns an event\n", what,
                 static_cast<double>(std::chrono::duration_cast<std::chrono::nanoseconds>(took).count()) / events);
}

} // namespace

int main(int argc, char **argv) {
    const size_t times = argc > 1 ? std::strtoull(argv[1], nullptr, 10) : 1;
    const size_t side = argc > 2 ? std::strtoull(argv[2], nullptr, 10) : 1024;
    const std::vector<Sample> samples = regular_samples(side);

    std::vector<uint32_t> values;
    values.reserve(samples.size());
    uint32_t greatest = 0;
    uint64_t bits = 0;
    Coder coder(usual_presets());
    for (const Sample &at : samples) {
        const Word word = coder.code(at.neighbours, at.sample);
        const uint32_t zeros = word.value >> word.k;
        values.push_back(word.value);
        greatest = std::max(greatest, word.k);
        bits += zeros < word.glimit - 9 ? zeros + 1 + word.k : word.glimit;
    }

    uint64_t sum = 0;
    auto code_took = Clock::duration::zero(), accept_took = code_took;
    for (size_t time = 0; time < times; ++time) {
        const auto start = Clock::now();
        sum = code_all(samples);
        const auto coded_at = Clock::now();
        if (!all_come_back(samples, values)) {
            std::fprintf(stderr, "the samples don't come back\n");
            return 1;
        }
        const auto end = Clock::now();
        code_took += coded_at - start;
        accept_took += end - coded_at;
    }

    std::printf("samples %zu\nevents %zu\ngreatest k %u\nbits %llu\nsum %016llx\n", side * side, samples.size(), greatest,
                static_cast<unsigned long long>(bits), static_cast<unsigned long long>(sum));
    tell("code", code_took, samples.size() * times);
    tell("accept", accept_took, samples.size() * times);
}
