// libdcmtkcharls.so.17 over libjlsrec. DCMTK's CharLS is one of 2010 with calls of its own and no header that is installed:
// they are declared here as its source has them. Below 8 bits a sample its default thresholds aren't the standard's; and it
// grows the destination where that is too small, by new[]. Both are left to it.
#include "coding.h"

#define EXPORT extern "C" __attribute__((visibility("default")))

namespace {

struct Custom {
    int maxval, t1, t2, t3, reset;
};

struct Jfif {
    int version;
    char units;
    int x_density, y_density;
    short x_thumbnail, y_thumbnail;
    void *thumbnail;
};

struct Parameters {
    int width, height, bits, stride, components, near_lossless;
    int interleave, transformation;
    char bgr;
    Custom custom;
    Jfif jfif;
};

struct Rectangle {
    int x, y, width, height;
};

using Status = int;
constexpr Status success = 0;

void *dcmtk_library()
{
    static void *const library = jlsrec::open_library(REAL_DCMTKCHARLS);
    return library;
}

// DCMTK's own function of a name; the type is that of the function here.
#define DCMTK(name)                                                                                                         \
    ([] {                                                                                                                   \
        static auto *const call = jlsrec::find<decltype(::name)>(dcmtk_library(), #name);                                   \
        return call;                                                                                                        \
    }())

bool is_plain(const Parameters &p)
{
    return p.interleave == 0 && p.near_lossless == 0 && p.transformation == 0 && p.bgr == 0 && p.bits >= 8 && p.width > 0 &&
           p.height > 0 && p.components > 0;
}

// The planes of a picture; false where rows stand apart.
bool planes_of(const Parameters &p, int stride, jlsrec::Planes &form)
{
    form = {uint32_t(p.width), uint32_t(p.height), uint32_t(p.bits), uint32_t(p.components), 0};
    form.stride = form.row_size();
    return stride == 0 || (stride > 0 && size_t(stride) == form.stride);
}

} // namespace

EXPORT Status JpegLsReadHeader(const void *bytes, size_t count, Parameters *params)
{
    return DCMTK(JpegLsReadHeader)(bytes, count, params);
}

EXPORT Status JpegLsDecode(void *to, size_t size, const void *bytes, size_t count, Parameters *params)
{
    Parameters found{};
    jlsrec::Planes form{};
    if (to && bytes && (!params || params->bgr == 0) && DCMTK(JpegLsReadHeader)(bytes, count, &found) == success &&
        is_plain(found) && planes_of(found, params ? params->stride : 0, form) && form.fits(size) &&
        jlsrec::decode(static_cast<const uint8_t *>(bytes), count, form, static_cast<uint8_t *>(to))) {
        ++jlsrec::counts.decoded;
        return success;
    }
    ++jlsrec::counts.decoded_there;
    return DCMTK(JpegLsDecode)(to, size, bytes, count, params);
}

EXPORT Status JpegLsDecodeRect(void *to, size_t size, const void *bytes, size_t count, Rectangle rectangle, Parameters *params)
{
    ++jlsrec::counts.decoded_there;
    return DCMTK(JpegLsDecodeRect)(to, size, bytes, count, rectangle, params);
}

EXPORT Status JpegLsVerifyEncode(const void *samples, size_t size, const void *bytes, size_t count)
{
    return DCMTK(JpegLsVerifyEncode)(samples, size, bytes, count);
}

EXPORT Status JpegLsEncode(uint8_t **to, size_t *size, size_t *written, const void *from, size_t count, Parameters *params)
{
    jlsrec::Planes form{};
    // Of colour over 12 bits it writes an LSE segment before every scan.
    if (to && *to && size && written && from && params && is_plain(*params) && params->jfif.version == 0 &&
        !(params->components == 3 && params->bits > 12) &&
        (params->custom.maxval | params->custom.t1 | params->custom.t2 | params->custom.t3 | params->custom.reset) == 0 &&
        planes_of(*params, params->stride, form) && form.fits(count) &&
        jlsrec::encode(static_cast<const uint8_t *>(from), form, params->bits > 12, {*to, *size, 0}, *written)) {
        ++jlsrec::counts.encoded;
        return success;
    }
    ++jlsrec::counts.encoded_there;
    return DCMTK(JpegLsEncode)(to, size, written, from, count, params);
}
