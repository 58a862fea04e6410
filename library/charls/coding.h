// What both drop-ins share: planes in a caller's memory to and from libjlsrec, and the system's own library.
//
// CharLS keeps a picture in planes, one component after the other, with a number of bytes from row to row. libjlsrec wants
// the samples of a pixel side by side, and its decoder leaves other samples behind after a fault. So colour is copied in
// both directions, and all is decoded into memory of its own. `encode` and `decode` are the one place where that is done.
//
// Each call answers false, with the caller's memory as it was, where the system's library is to do the work.
#pragma once
#include "jlsrec.h"
#include <atomic>
#include <cstdint>
#include <cstdio>
#include <cstdlib>
#include <cstring>
#include <dlfcn.h>
#include <memory>

namespace jlsrec {

// How many pictures were coded by libjlsrec, and how many by the system's library. When the process ends, a line of them is
// added to the file that JLSREC_CHARLS_COUNTS names.
struct Counts {
    std::atomic<unsigned long> encoded{0}, encoded_there{0}, decoded{0}, decoded_there{0};

    ~Counts()
    {
        const char *const name = std::getenv("JLSREC_CHARLS_COUNTS");
        std::FILE *const file = name ? std::fopen(name, "a") : nullptr;
        if (!file)
            return;
        std::fprintf(file, "encoded %lu, and there %lu; decoded %lu, and there %lu\n", encoded.load(), encoded_there.load(),
                     decoded.load(), decoded_there.load());
        std::fclose(file);
    }
};
inline Counts counts;

// The system's own library, which stays open.
inline void *open_library(const char *path)
{
    void *const library = dlopen(path, RTLD_NOW | RTLD_LOCAL);
    if (!library) {
        std::fprintf(stderr, "jlsrec-charls: %s\n", dlerror());
        std::abort();
    }
    return library;
}

// A function of it.
template <typename Call> Call *find(void *library, const char *name)
{
    void *const call = dlsym(library, name);
    if (!call) {
        std::fprintf(stderr, "jlsrec-charls: %s\n", dlerror());
        std::abort();
    }
    return reinterpret_cast<Call *>(call);
}

// A picture in planes. Samples have a byte each up to 8 bits, else two, in the machine's order.
struct Planes {
    uint32_t width, height, bits, components;
    size_t stride; // bytes from row to row

    size_t sample_size() const { return bits <= 8 ? 1 : 2; }
    size_t row_size() const { return width * sample_size(); }
    size_t samples() const { return size_t{width} * height * components; }
    uint32_t maxval() const { return (uint32_t{1} << bits) - 1; }

    // Whether libjlsrec codes such a picture, and so many bytes hold its planes. After the last row no stride is wanted.
    bool fits(size_t size) const
    {
        return width >= 1 && width <= 65535 && height >= 1 && height <= 65535 && bits >= 2 && bits <= 16 &&
               (components == 1 || components == 3) && uint64_t{width} * height * components <= uint64_t{1} << 28 &&
               stride >= row_size() && stride <= uint64_t{1} << 32 &&
               size >= stride * height * components - (stride - row_size());
    }
};

struct Free {
    void operator()(void *memory) const { std::free(memory); }
};
using Memory = std::unique_ptr<uint8_t, Free>;

// Memory that isn't written, or null.
inline Memory allocate(size_t size) { return Memory(static_cast<uint8_t *>(std::malloc(size))); }

// Copies planes to pixels, `Sample` being uint8_t or uint16_t.
template <typename Sample> void join(const uint8_t *planes, const Planes &form, uint8_t *pixels)
{
    for (uint32_t y = 0; y < form.height; ++y)
        for (uint32_t c = 0; c < form.components; ++c) {
            const uint8_t *from = planes + (size_t{c} * form.height + y) * form.stride;
            uint8_t *to = pixels + (size_t{y} * form.width * form.components + c) * sizeof(Sample);
            for (uint32_t x = 0; x < form.width; ++x, from += sizeof(Sample), to += form.components * sizeof(Sample))
                std::memcpy(to, from, sizeof(Sample));
        }
}

// Copies pixels to planes. Bytes between rows stay.
template <typename Sample> void part(const uint8_t *pixels, const Planes &form, uint8_t *planes)
{
    for (uint32_t y = 0; y < form.height; ++y)
        for (uint32_t c = 0; c < form.components; ++c) {
            const uint8_t *from = pixels + (size_t{y} * form.width * form.components + c) * sizeof(Sample);
            uint8_t *to = planes + (size_t{c} * form.height + y) * form.stride;
            for (uint32_t x = 0; x < form.width; ++x, from += form.components * sizeof(Sample), to += sizeof(Sample))
                std::memcpy(to, from, sizeof(Sample));
        }
}

// Whether nothing but data, headers of scans and EOI follows the first scan's header, in bytes that are a codestream.
// CharLS shows comments between scans to whoever listens, and refuses those before EOI.
inline bool has_scans_only(const uint8_t *bytes, size_t count)
{
    const uint8_t *at = bytes + 2, *const end = bytes + count;
    bool scan = false;
    while (end - at >= 2) {
        if (scan) {
            at = static_cast<const uint8_t *>(std::memchr(at, 0xff, end - at - 1));
            if (!at)
                return false;
        }
        const uint8_t marker = at[1];
        if (marker == 0xff) { // a fill byte
            ++at;
        } else if (marker < 0x80) { // a stuffed bit
            at += 2;
        } else if (marker == 0xd9) {
            return at + 2 == end;
        } else if ((scan && marker != 0xda) || end - at < 4) {
            return false;
        } else {
            scan |= marker == 0xda;
            at += 2 + (at[2] << 8 | at[3]);
        }
    }
    return false;
}

// Decodes a codestream to planes, if it is one of such a picture. The planes fit.
inline bool decode(const uint8_t *bytes, size_t count, const Planes &form, uint8_t *planes)
{
    jlsrec_form found;
    jlsrec_fault fault;
    size_t used = 0;
    if (jlsrec_read_form(bytes, count, &found, &fault) != JLSREC_OK || found.width != form.width ||
        found.height != form.height || found.components != form.components || found.maxval != form.maxval())
        return false;
    const Memory pixels = allocate(form.samples() * form.sample_size());
    if (!pixels)
        return false;
    uint8_t *const at = pixels.get();
    const bool bytewise = form.sample_size() == 1;
    const uint32_t status =
        bytewise ? jlsrec_decode_8(bytes, count, at, form.samples(), &found, &used, &fault)
                 : jlsrec_decode_16(bytes, count, reinterpret_cast<uint16_t *>(at), form.samples(), &found, &used, &fault);
    if (status != JLSREC_OK || !has_scans_only(bytes, used))
        return false;
    if (form.components == 1)
        for (uint32_t y = 0; y < form.height; ++y)
            std::memcpy(planes + y * form.stride, at + y * form.row_size(), form.row_size());
    else if (bytewise)
        part<uint8_t>(at, form, planes);
    else
        part<uint16_t>(at, form, planes);
    return true;
}

// An LSE segment with the defaults of over 12 bits (T.87 C.2.4.1.1), but for its maxval.
constexpr size_t lse_size = 15;
inline void write_lse(uint32_t maxval, uint8_t *to)
{
    const uint8_t segment[lse_size] = {0xff, 0xf8, 0, 13, 1, uint8_t(maxval >> 8), uint8_t(maxval), 0, 18, 0, 67, 1, 20, 0, 64};
    std::memcpy(to, segment, lse_size);
}

// What there is to write to: `size` bytes, of which the first `prefix` are written, either none, or SOI and segments.
struct Destination {
    uint8_t *bytes;
    size_t size, prefix;
};

// Encodes planes, which fit, behind the prefix, with an LSE segment after the frame header if that is asked for. Leaves
// the number of all bytes in `written`.
inline bool encode(const uint8_t *planes, const Planes &form, bool lse, const Destination &to, size_t &written)
{
    const bool bytewise = form.sample_size() == 1;
    size_t stride = form.stride / form.sample_size();
    Memory pixels;
    if (form.components == 3 || form.stride % form.sample_size() != 0 ||
        reinterpret_cast<uintptr_t>(planes) % form.sample_size() != 0) {
        pixels = allocate(form.samples() * form.sample_size());
        if (!pixels)
            return false;
        if (bytewise)
            join<uint8_t>(planes, form, pixels.get());
        else
            join<uint16_t>(planes, form, pixels.get());
        planes = pixels.get();
        stride = size_t{form.width} * form.components;
    }

    // SOI goes over the prefix's last two bytes, or over the place of the LSE segment.
    const size_t shift = lse ? lse_size : 0;
    const size_t begin = (to.prefix == 0 ? 0 : to.prefix - 2) + shift;
    const size_t frame = 2 + 2 + 6 + 3 * form.components; // the frame header, with its marker
    if (to.prefix == 1 || begin + 2 > to.size)
        return false;
    uint8_t *const at = to.bytes + begin;
    uint8_t kept[2];
    std::memcpy(kept, at, 2);
    const jlsrec_form wanted{form.components, form.width, form.height, form.maxval(), 0, 0, 0, 0};
    const size_t count = (form.height - 1) * stride + size_t{form.width} * form.components;
    size_t got = 0;
    const uint32_t status =
        bytewise ? jlsrec_encode_8(&wanted, planes, count, stride, at, to.size - begin, &got)
                 : jlsrec_encode_16(&wanted, reinterpret_cast<const uint16_t *>(planes), count, stride, at, to.size - begin, &got);
    if (status != JLSREC_OK)
        return false;
    if (lse) {
        // SOI and the frame header go to their place, and LSE behind them.
        uint8_t *const front = at - shift;
        if (to.prefix == 0)
            std::memcpy(front, at, 2);
        std::memmove(front + 2, at + 2, frame);
        write_lse(form.maxval(), front + 2 + frame);
    } else if (to.prefix != 0) {
        std::memcpy(at, kept, 2);
    }
    written = begin + got;
    return true;
}

} // namespace jlsrec
