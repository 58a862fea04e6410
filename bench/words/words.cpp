// The twin of `ls_bench words`: the same table of values, put as the same code words into the same stuffed bytes and
// taken back. It prints the same lines to standard output, and its times to standard error. It is the yardstick that
// the proved program is measured by, and what the proved program's stored output comes from.
//
//     words [TIMES [WORDS]]
//
// A code word of v, for errors of qbpp bits and words of at most limit bits: where v >> k is below limit - qbpp - 1,
// that many zeros, a one, and the low k bits of v; else limit - qbpp - 1 zeros, a one, and v - 1 in qbpp bits.
//
// Stuffing: bits go into bytes, the most significant first. The byte behind an FF holds seven bits, with a 0 on top.
// The last byte is filled with zeros, and where it is FF a 00 follows.
#include <chrono>
#include <cstdint>
#include <cstdio>
#include <cstdlib>
#include <cstring>
#include <memory>
#include <utility>
#include <vector>

namespace {

constexpr unsigned limit = 32;
constexpr unsigned qbpp = 8;
constexpr uint32_t most_value = 1u << qbpp;
constexpr unsigned escape = limit - qbpp - 1;

struct Event {
    uint8_t k;
    uint16_t value;
};

// ----------------------------------------------------------------------------------------------------------- the table

// splitmix64
struct Random {
    uint64_t state;

    uint64_t next() {
        uint64_t z = state += 0x9e3779b97f4a7c15;
        z = (z ^ z >> 30) * 0xbf58476d1ce4e5b9;
        z = (z ^ z >> 27) * 0x94d049bb133111eb;
        return z ^ z >> 31;
    }
};

// Of 65536, how often a value of each context is followed by one more: means of about 1/2, 1, 3, 6, 12, 24, 48 and 96.
constexpr uint64_t goes_on[8] = {21845, 32768, 49152, 56174, 60495, 62915, 64199, 64860};

// What a context knows: the sum of its errors' magnitudes, and their count, halved together at 64.
struct Context {
    uint32_t sum = 4;
    uint32_t count = 1;

    unsigned k() const {
        unsigned k = 0;
        while (count << k < sum) ++k;
        return k;
    }

    // A value v stands for an error of magnitude (v + 1) / 2.
    void learn(uint32_t value) {
        sum += (value + 1) / 2;
        if (count == 64) {
            sum /= 2;
            count /= 2;
        }
        ++count;
    }
};

// The lowest three bits of a draw are the context, the highest 32 a place in its distribution; `tail` is the part of
// the distribution that is greater than the value so far.
std::vector<Event> table(size_t words) {
    Random random{0x6a6c73726563};
    Context contexts[8];
    std::vector<Event> events;
    events.reserve(words);
    while (events.size() < words) {
        const uint64_t draw = random.next();
        const uint64_t place = draw >> 32;
        Context &context = contexts[draw & 7];
        uint32_t value = 0;
        uint64_t tail = goes_on[draw & 7] << 16;
        while (value < most_value && place < tail) {
            ++value;
            tail = tail * goes_on[draw & 7] >> 16;
        }
        events.push_back({static_cast<uint8_t>(context.k()), static_cast<uint16_t>(value)});
        context.learn(value);
    }
    return events;
}

// ------------------------------------------------------------------------------------------------------- bits, stuffed

uint64_t big_endian(uint64_t word) { return __builtin_bswap64(word); }

// Whether one of the eight bytes is FF: its top bit is set, and its other seven carry into it.
bool has_ff(uint64_t word) {
    constexpr uint64_t tops = 0x8080808080808080, ones = 0x0101010101010101;
    return word & ((word & ~tops) + ones) & tops;
}

// Where bytes go: a vector that is made larger as need be, or room that is there from the start.
struct Growing {
    std::vector<uint8_t> bytes;

    uint8_t *at(size_t size) {
        if (bytes.size() - size < 16) bytes.resize(bytes.size() * 2 + 64);
        return &bytes[size];
    }
};

struct Room {
    uint8_t *bytes;

    uint8_t *at(size_t size) { return bytes + size; }
};

template <class Place>
class Writer {
    Place place_;
    size_t size_ = 0;
    uint64_t word_ = 0;  // its lowest 64 - free_ bits wait; those above them mean nothing
    unsigned free_ = 64; // 1 to 64
    bool behind_ff_ = false;

    // Eight bytes of bits that stand in front of the word's. Where an FF makes a byte hold seven, those that are left
    // over wait with the word's.
    void put_out(uint64_t full) {
        uint8_t *at = place_.at(size_);
        if (__builtin_expect(!behind_ff_ && !has_ff(full), 1)) {
            full = big_endian(full);
            std::memcpy(at, &full, 8);
            size_ += 8;
        } else {
            put_out_bytes(full, at);
        }
    }

    __attribute__((noinline)) void put_out_bytes(uint64_t full, uint8_t *at) {
        unsigned left = 64;
        while (left >= 8) {
            left -= behind_ff_ ? 7 : 8;
            *at = full >> left & (behind_ff_ ? 0x7f : 0xff);
            behind_ff_ = *at++ == 0xff;
            ++size_;
        }
        const unsigned waiting = 64 - free_;
        word_ = full << waiting | (word_ & ((uint64_t{1} << waiting) - 1));
        free_ -= left;
    }

public:
    explicit Writer(Place place) : place_(std::move(place)) {}

    // `value` in `count` bits, 32 at most.
    void put(uint64_t value, unsigned count) {
        if (count < free_) {
            word_ = word_ << count | value;
            free_ -= count;
            return;
        }
        const unsigned waiting = count - free_;
        const uint64_t full = word_ << free_ | value >> waiting;
        word_ = value;
        free_ = 64 - waiting;
        put_out(full);
    }

    void put_golomb(unsigned k, uint32_t v) {
        const uint32_t zeros = v >> k;
        if (zeros < escape) {
            const uint32_t one = 1u << k;
            put(one | (v & (one - 1)), zeros + 1 + k);
        } else {
            put(most_value | (v - 1), limit);
        }
    }

    // The place, and how many bytes are in it.
    std::pair<Place, size_t> finish() {
        unsigned held = 64 - free_;
        uint8_t *at = place_.at(size_);
        while (held > 0 || behind_ff_) {
            const unsigned room = behind_ff_ ? 7 : 8;
            const uint64_t byte = held >= room ? word_ >> (held - room) : word_ << (room - held);
            *at = byte & (behind_ff_ ? 0x7f : 0xff);
            behind_ff_ = *at++ == 0xff;
            ++size_;
            held -= held < room ? held : room;
        }
        return {std::move(place_), size_};
    }
};

class Reader {
    const uint8_t *at_;
    const uint8_t *end_;
    uint64_t word_ = 0; // its highest held_ bits are next; those below are zeros or what will come there
    unsigned held_ = 0;
    bool behind_ff_ = false;

    // At least 56 bits, or all.
    void refill() {
        if (__builtin_expect(!behind_ff_ && end_ - at_ >= 8, 1)) {
            uint64_t next;
            std::memcpy(&next, at_, 8);
            next = big_endian(next);
            if (__builtin_expect(!has_ff(next), 1)) {
                word_ |= next >> held_;
                at_ += (63 - held_) >> 3;
                held_ |= 56;
                return;
            }
        }
        refill_by_bytes();
    }

    __attribute__((noinline)) void refill_by_bytes() {
        word_ &= ~(~uint64_t{0} >> held_);
        while (held_ <= 56 && at_ < end_) {
            const unsigned room = behind_ff_ ? 7 : 8;
            word_ |= uint64_t{*at_} << (64 - room) >> held_;
            held_ += room;
            behind_ff_ = *at_++ == 0xff;
        }
    }

public:
    explicit Reader(const std::vector<uint8_t> &bytes) : at_(bytes.data()), end_(at_ + bytes.size()) {}

    // The value of the word in front, or -1 where none is there, or none that a writer makes.
    int take_golomb(unsigned k) {
        if (held_ < limit) refill();
        if (word_ == 0) return -1;
        const unsigned zeros = __builtin_clzll(word_);
        if (zeros < escape) {
            const unsigned count = zeros + 1 + k;
            if (held_ < count) return -1;
            const uint32_t low = word_ << (zeros + 1) >> 1 >> (63 - k);
            const uint32_t value = zeros << k | low;
            if (value > most_value) return -1;
            word_ <<= count;
            held_ -= count;
            return static_cast<int>(value);
        }
        if (zeros > escape || held_ < limit) return -1;
        const uint32_t value = (word_ << (zeros + 1) >> (64 - qbpp)) + 1;
        if (value >> k < escape) return -1;
        word_ <<= limit;
        held_ -= limit;
        return static_cast<int>(value);
    }
};

// ----------------------------------------------------------------------------------------------------- the measurement

using Clock = std::chrono::steady_clock;

template <class Place>
std::pair<Place, size_t> put_all(const std::vector<Event> &events, Place place) {
    Writer<Place> writer(std::move(place));
    for (const Event &event : events) writer.put_golomb(event.k, event.value);
    return writer.finish();
}

bool take_all(const std::vector<Event> &events, const std::vector<uint8_t> &bytes) {
    Reader reader(bytes);
    for (const Event &event : events) {
        if (reader.take_golomb(event.k) != event.value) return false;
    }
    return true;
}

uint64_t fnv1a(const std::vector<uint8_t> &bytes) {
    uint64_t hash = 0xcbf29ce484222325;
    for (const uint8_t byte : bytes) hash = (hash ^ byte) * 0x100000001b3;
    return hash;
}

void tell(const char *what, Clock::duration took, size_t words) {
    if (words == 0) return;
    std::fprintf(stderr, "%s: %.3f ns a word\n", what,
                 static_cast<double>(std::chrono::duration_cast<std::chrono::nanoseconds>(took).count()) / words);
}

} // namespace

int main(int argc, char **argv) {
    const size_t times = argc > 1 ? std::strtoull(argv[1], nullptr, 10) : 1;
    const size_t words = argc > 2 ? std::strtoull(argv[2], nullptr, 10) : size_t{1} << 20;
    const std::vector<Event> events = table(words);

    const std::unique_ptr<uint8_t[]> room(new uint8_t[words * limit / 7 + 16]);
    std::vector<uint8_t> bytes;
    size_t size = 0;
    auto grown_took = Clock::duration::zero(), room_took = grown_took, take_took = grown_took;
    for (size_t time = 0; time < times; ++time) {
        const auto start = Clock::now();
        auto [growing, grown_size] = put_all(events, Growing{});
        growing.bytes.resize(grown_size);
        bytes = std::move(growing.bytes);
        const auto grown_at = Clock::now();
        size = put_all(events, Room{room.get()}).second;
        const auto room_at = Clock::now();
        if (!take_all(events, bytes)) {
            std::fprintf(stderr, "the values don't come back\n");
            return 1;
        }
        const auto end = Clock::now();
        grown_took += grown_at - start;
        room_took += room_at - grown_at;
        take_took += end - room_at;
    }
    if (size != bytes.size() || std::memcmp(room.get(), bytes.data(), size) != 0) {
        std::fprintf(stderr, "the bytes differ\n");
        return 1;
    }

    unsigned greatest = 0;
    for (const Event &event : events) greatest = event.k > greatest ? event.k : greatest;
    std::printf("words %zu\ngreatest k %u\nbytes %zu\nFNV-1a %016llx\n", words, greatest, bytes.size(),
                static_cast<unsigned long long>(fnv1a(bytes)));
    tell("put, growing", grown_took, words * times);
    tell("put, room there", room_took, words * times);
    tell("take", take_took, words * times);
}
