// libcharls.so.2 over libjlsrec. Each object holds one of CharLS's own, which checks every argument, reads and writes every
// header, and codes what libjlsrec doesn't: README.md says what that is, and where this differs from CharLS.
#define CHARLS_LIBRARY_BUILD
#define CHARLS_NO_DEPRECATED_WARNING
#include "coding.h"
// The headers promise the compiler pointers that aren't null. What is null all the same is CharLS's to refuse.
#include <charls/annotations.h>
#undef CHARLS_ATTRIBUTE
#define CHARLS_ATTRIBUTE(attributes)
#undef CHARLS_ATTRIBUTE_ACCESS
#define CHARLS_ATTRIBUTE_ACCESS(attributes)
#include <charls/charls.h>
#include <new>

#define EXPORT extern "C" __attribute__((visibility("default")))

using charls::jpegls_errc;
constexpr auto success = jpegls_errc::success;

namespace {

void *charls_library()
{
    static void *const library = jlsrec::open_library(REAL_CHARLS);
    return library;
}

// CharLS's own function of a name.
#define CHARLS(name)                                                                                                        \
    ([] {                                                                                                                   \
        static auto *const call = jlsrec::find<std::remove_pointer_t<decltype(&::name)>>(charls_library(), #name);          \
        return call;                                                                                                        \
    }())

struct Decoder {
    charls_jpegls_decoder *own;
    const uint8_t *bytes = nullptr;
    size_t count = 0;
    // Whether libjlsrec decoded it, or CharLS was asked to: then that decides, also if it is asked again.
    bool done = false, handed_on = false;
};

struct Encoder {
    charls_jpegls_encoder *own;
    uint8_t *to = nullptr;
    size_t size = 0;
    charls_frame_info frame{};
    unsigned options = static_cast<unsigned>(charls::encoding_options::include_pc_parameters_jai);
    bool lossy = false, interleaved = false, transformed = false, preset = false;
    // Whether a SPIFF header is written, and not its end.
    bool in_spiff = false;
    // Whether CharLS was asked to encode, or left something unfinished in the destination.
    bool handed_on = false;
    // How many bytes there are once libjlsrec has encoded; else 0.
    size_t written = 0;

    bool is_plain() const
    {
        return !lossy && !interleaved && !transformed && !preset &&
               (options & ~static_cast<unsigned>(charls::encoding_options::include_pc_parameters_jai)) == 0;
    }
};

Decoder &of(charls_jpegls_decoder *object) { return *reinterpret_cast<Decoder *>(object); }
const Decoder &of(const charls_jpegls_decoder *object) { return *reinterpret_cast<const Decoder *>(object); }
Encoder &of(charls_jpegls_encoder *object) { return *reinterpret_cast<Encoder *>(object); }
const Encoder &of(const charls_jpegls_encoder *object) { return *reinterpret_cast<const Encoder *>(object); }

bool is_zero(const charls_jpegls_pc_parameters &p)
{
    return (p.maximum_sample_value | p.threshold1 | p.threshold2 | p.threshold3 | p.reset_value) == 0;
}

bool is_zero(const JpegLSPresetCodingParameters &p)
{
    return (p.MaximumSampleValue | p.Threshold1 | p.Threshold2 | p.Threshold3 | p.ResetValue) == 0;
}

// The planes of a picture. A stride of 0 is that of rows with nothing between.
jlsrec::Planes planes_of(const charls_frame_info &frame, size_t stride)
{
    jlsrec::Planes form{frame.width, frame.height, uint32_t(frame.bits_per_sample), uint32_t(frame.component_count), stride};
    if (stride == 0)
        form.stride = form.row_size();
    return form;
}

bool decode(const void *bytes, size_t count, void *to, size_t size, const jlsrec::Planes &form)
{
    return bytes && to && form.fits(size) &&
           jlsrec::decode(static_cast<const uint8_t *>(bytes), count, form, static_cast<uint8_t *>(to));
}

// The standard's defaults for over 12 bits stand in a segment, if that is asked for, as JAI wants it.
bool encode(const void *from, size_t count, const jlsrec::Planes &form, bool for_jai, const jlsrec::Destination &to,
            size_t &written)
{
    return from && to.bytes && form.fits(count) &&
           jlsrec::encode(static_cast<const uint8_t *>(from), form, for_jai && form.bits > 12, to, written);
}

} // namespace

// ---- decoder

EXPORT charls_jpegls_decoder *charls_jpegls_decoder_create() noexcept
{
    auto *const own = CHARLS(charls_jpegls_decoder_create)();
    if (!own)
        return nullptr;
    auto *const object = new (std::nothrow) Decoder{own};
    if (!object)
        CHARLS(charls_jpegls_decoder_destroy)(own);
    return reinterpret_cast<charls_jpegls_decoder *>(object);
}

EXPORT void charls_jpegls_decoder_destroy(const charls_jpegls_decoder *object) noexcept
{
    if (!object)
        return;
    CHARLS(charls_jpegls_decoder_destroy)(of(object).own);
    delete &of(object);
}

// A call of an object, as CharLS answers it.
#define ASK(name, ...) (object ? CHARLS(name)(of(object).own, __VA_ARGS__) : jpegls_errc::invalid_argument)
#define ASK_ALONE(name) (object ? CHARLS(name)(of(object).own) : jpegls_errc::invalid_argument)

EXPORT jpegls_errc charls_jpegls_decoder_set_source_buffer(charls_jpegls_decoder *object, const void *bytes, size_t count) noexcept
{
    const auto result = ASK(charls_jpegls_decoder_set_source_buffer, bytes, count);
    if (result == success) {
        of(object).bytes = static_cast<const uint8_t *>(bytes);
        of(object).count = count;
    }
    return result;
}

EXPORT jpegls_errc charls_jpegls_decoder_read_spiff_header(charls_jpegls_decoder *object, charls_spiff_header *header,
                                                           int32_t *found) noexcept
{
    return ASK(charls_jpegls_decoder_read_spiff_header, header, found);
}

EXPORT jpegls_errc charls_jpegls_decoder_read_header(charls_jpegls_decoder *object) noexcept
{
    return ASK_ALONE(charls_jpegls_decoder_read_header);
}

EXPORT jpegls_errc charls_jpegls_decoder_get_frame_info(const charls_jpegls_decoder *object, charls_frame_info *frame) noexcept
{
    return ASK(charls_jpegls_decoder_get_frame_info, frame);
}

EXPORT jpegls_errc charls_jpegls_decoder_get_near_lossless(const charls_jpegls_decoder *object, int32_t component,
                                                           int32_t *near_lossless) noexcept
{
    return ASK(charls_jpegls_decoder_get_near_lossless, component, near_lossless);
}

EXPORT jpegls_errc charls_jpegls_decoder_get_interleave_mode(const charls_jpegls_decoder *object, charls_interleave_mode *mode) noexcept
{
    return ASK(charls_jpegls_decoder_get_interleave_mode, mode);
}

EXPORT jpegls_errc charls_jpegls_decoder_get_preset_coding_parameters(const charls_jpegls_decoder *object, int32_t reserved,
                                                                      charls_jpegls_pc_parameters *parameters) noexcept
{
    return ASK(charls_jpegls_decoder_get_preset_coding_parameters, reserved, parameters);
}

EXPORT jpegls_errc charls_jpegls_decoder_get_color_transformation(const charls_jpegls_decoder *object,
                                                                  charls_color_transformation *transformation) noexcept
{
    return ASK(charls_jpegls_decoder_get_color_transformation, transformation);
}

EXPORT jpegls_errc charls_jpegls_decoder_get_destination_size(const charls_jpegls_decoder *object, uint32_t stride,
                                                              size_t *size) noexcept
{
    return ASK(charls_jpegls_decoder_get_destination_size, stride, size);
}

EXPORT jpegls_errc charls_jpegls_decoder_at_comment(charls_jpegls_decoder *object, charls_at_comment_handler handler,
                                                    void *context) noexcept
{
    return ASK(charls_jpegls_decoder_at_comment, handler, context);
}

EXPORT jpegls_errc charls_jpegls_decoder_at_application_data(charls_jpegls_decoder *object,
                                                             charls_at_application_data_handler handler, void *context) noexcept
{
    return ASK(charls_jpegls_decoder_at_application_data, handler, context);
}

namespace {

// Whether CharLS has read the header of a picture that libjlsrec decodes, which it leaves in `frame`.
bool is_plain(const Decoder &it, charls_frame_info &frame)
{
    charls_interleave_mode mode{};
    charls_color_transformation transformation{};
    int32_t near_lossless = 0;
    return !it.handed_on && CHARLS(charls_jpegls_decoder_get_frame_info)(it.own, &frame) == success &&
           CHARLS(charls_jpegls_decoder_get_interleave_mode)(it.own, &mode) == success && mode == charls::interleave_mode::none &&
           CHARLS(charls_jpegls_decoder_get_near_lossless)(it.own, 0, &near_lossless) == success && near_lossless == 0 &&
           CHARLS(charls_jpegls_decoder_get_color_transformation)(it.own, &transformation) == success &&
           transformation == charls::color_transformation::none;
}

} // namespace

EXPORT jpegls_errc charls_jpegls_decoder_decode_to_buffer(charls_jpegls_decoder *object, void *to, size_t size,
                                                          uint32_t stride) noexcept
{
    if (!object)
        return jpegls_errc::invalid_argument;
    Decoder &it = of(object);
    if (it.done)
        return to || size == 0 ? jpegls_errc::invalid_operation : jpegls_errc::invalid_argument;
    charls_frame_info frame{};
    if (is_plain(it, frame) && decode(it.bytes, it.count, to, size, planes_of(frame, stride))) {
        it.done = true;
        ++jlsrec::counts.decoded;
        return success;
    }
    it.handed_on = true;
    ++jlsrec::counts.decoded_there;
    return CHARLS(charls_jpegls_decoder_decode_to_buffer)(it.own, to, size, stride);
}

// ---- encoder

EXPORT charls_jpegls_encoder *charls_jpegls_encoder_create() noexcept
{
    auto *const own = CHARLS(charls_jpegls_encoder_create)();
    if (!own)
        return nullptr;
    auto *const object = new (std::nothrow) Encoder{own};
    if (!object)
        CHARLS(charls_jpegls_encoder_destroy)(own);
    return reinterpret_cast<charls_jpegls_encoder *>(object);
}

EXPORT void charls_jpegls_encoder_destroy(const charls_jpegls_encoder *object) noexcept
{
    if (!object)
        return;
    CHARLS(charls_jpegls_encoder_destroy)(of(object).own);
    delete &of(object);
}

EXPORT jpegls_errc charls_jpegls_encoder_set_destination_buffer(charls_jpegls_encoder *object, void *to, size_t size) noexcept
{
    const auto result = ASK(charls_jpegls_encoder_set_destination_buffer, to, size);
    if (result == success) {
        of(object).to = static_cast<uint8_t *>(to);
        of(object).size = size;
    }
    return result;
}

EXPORT jpegls_errc charls_jpegls_encoder_set_frame_info(charls_jpegls_encoder *object, const charls_frame_info *frame) noexcept
{
    const auto result = ASK(charls_jpegls_encoder_set_frame_info, frame);
    if (result == success)
        of(object).frame = *frame;
    return result;
}

EXPORT jpegls_errc charls_jpegls_encoder_set_near_lossless(charls_jpegls_encoder *object, int32_t near_lossless) noexcept
{
    const auto result = ASK(charls_jpegls_encoder_set_near_lossless, near_lossless);
    if (result == success)
        of(object).lossy = near_lossless != 0;
    return result;
}

EXPORT jpegls_errc charls_jpegls_encoder_set_encoding_options(charls_jpegls_encoder *object, charls_encoding_options options) noexcept
{
    const auto result = ASK(charls_jpegls_encoder_set_encoding_options, options);
    if (result == success)
        of(object).options = static_cast<unsigned>(options);
    return result;
}

EXPORT jpegls_errc charls_jpegls_encoder_set_interleave_mode(charls_jpegls_encoder *object, charls_interleave_mode mode) noexcept
{
    const auto result = ASK(charls_jpegls_encoder_set_interleave_mode, mode);
    if (result == success)
        of(object).interleaved = mode != charls::interleave_mode::none;
    return result;
}

EXPORT jpegls_errc charls_jpegls_encoder_set_preset_coding_parameters(charls_jpegls_encoder *object,
                                                                      const charls_jpegls_pc_parameters *parameters) noexcept
{
    const auto result = ASK(charls_jpegls_encoder_set_preset_coding_parameters, parameters);
    if (result == success)
        of(object).preset = !is_zero(*parameters);
    return result;
}

EXPORT jpegls_errc charls_jpegls_encoder_set_color_transformation(charls_jpegls_encoder *object,
                                                                  charls_color_transformation transformation) noexcept
{
    const auto result = ASK(charls_jpegls_encoder_set_color_transformation, transformation);
    if (result == success)
        of(object).transformed = transformation != charls::color_transformation::none;
    return result;
}

EXPORT jpegls_errc charls_jpegls_encoder_get_estimated_destination_size(const charls_jpegls_encoder *object, size_t *size) noexcept
{
    return ASK(charls_jpegls_encoder_get_estimated_destination_size, size);
}

EXPORT jpegls_errc charls_jpegls_encoder_get_bytes_written(const charls_jpegls_encoder *object, size_t *written) noexcept
{
    if (!object || !written || of(object).written == 0)
        return ASK(charls_jpegls_encoder_get_bytes_written, written);
    *written = of(object).written;
    return success;
}

// A call that has CharLS write a segment; `spiff` says whether a SPIFF header is then open. What it couldn't write whole
// is CharLS's to go on with.
#define WRITE(spiff, ...)                                                                                                   \
    do {                                                                                                                    \
        if (object && of(object).written != 0)                                                                              \
            return jpegls_errc::invalid_operation;                                                                          \
        const auto result = __VA_ARGS__;                                                                                    \
        if (result == success)                                                                                              \
            of(object).in_spiff = spiff;                                                                                    \
        else if (object)                                                                                                    \
            of(object).handed_on |= result == jpegls_errc::destination_buffer_too_small;                                    \
        return result;                                                                                                      \
    } while (false)

EXPORT jpegls_errc charls_jpegls_encoder_write_spiff_header(charls_jpegls_encoder *object, const charls_spiff_header *header) noexcept
{
    WRITE(true, ASK(charls_jpegls_encoder_write_spiff_header, header));
}

EXPORT jpegls_errc charls_jpegls_encoder_write_standard_spiff_header(charls_jpegls_encoder *object, charls_spiff_color_space space,
                                                                     charls_spiff_resolution_units units, uint32_t vertical,
                                                                     uint32_t horizontal) noexcept
{
    WRITE(true, ASK(charls_jpegls_encoder_write_standard_spiff_header, space, units, vertical, horizontal));
}

EXPORT jpegls_errc charls_jpegls_encoder_write_spiff_entry(charls_jpegls_encoder *object, uint32_t tag, const void *data,
                                                           size_t size) noexcept
{
    WRITE(true, ASK(charls_jpegls_encoder_write_spiff_entry, tag, data, size));
}

EXPORT jpegls_errc charls_jpegls_encoder_write_spiff_end_of_directory_entry(charls_jpegls_encoder *object) noexcept
{
    WRITE(false, ASK_ALONE(charls_jpegls_encoder_write_spiff_end_of_directory_entry));
}

EXPORT jpegls_errc charls_jpegls_encoder_write_comment(charls_jpegls_encoder *object, const void *comment, size_t size) noexcept
{
    WRITE(false, ASK(charls_jpegls_encoder_write_comment, comment, size));
}

EXPORT jpegls_errc charls_jpegls_encoder_write_application_data(charls_jpegls_encoder *object, int32_t id, const void *data,
                                                                size_t size) noexcept
{
    WRITE(false, ASK(charls_jpegls_encoder_write_application_data, id, data, size));
}

EXPORT jpegls_errc charls_jpegls_encoder_rewind(charls_jpegls_encoder *object) noexcept
{
    const auto result = ASK_ALONE(charls_jpegls_encoder_rewind);
    if (result == success) {
        of(object).written = 0;
        of(object).in_spiff = of(object).handed_on = false;
    }
    return result;
}

namespace {

// Has CharLS write what is due before a picture, and says how many bytes there are.
bool begin(Encoder &it, size_t &prefix)
{
    if (it.in_spiff) {
        if (CHARLS(charls_jpegls_encoder_write_spiff_end_of_directory_entry)(it.own) != success)
            return false;
        it.in_spiff = false;
    }
    return CHARLS(charls_jpegls_encoder_get_bytes_written)(it.own, &prefix) == success && prefix <= it.size;
}

bool encode(Encoder &it, const void *from, size_t count, uint32_t stride)
{
    const auto form = planes_of(it.frame, stride);
    size_t prefix = 0;
    return it.is_plain() && !it.handed_on && it.to && from && form.fits(count) && begin(it, prefix) &&
           encode(from, count, form, it.options != 0, {it.to, it.size, prefix}, it.written);
}

} // namespace

EXPORT jpegls_errc charls_jpegls_encoder_encode_from_buffer(charls_jpegls_encoder *object, const void *from, size_t count,
                                                            uint32_t stride) noexcept
{
    if (!object)
        return jpegls_errc::invalid_argument;
    Encoder &it = of(object);
    if (it.written != 0) // CharLS appends a second codestream
        return jpegls_errc::invalid_operation;
    if (encode(it, from, count, stride)) {
        ++jlsrec::counts.encoded;
        return success;
    }
    it.handed_on = true;
    ++jlsrec::counts.encoded_there;
    return CHARLS(charls_jpegls_encoder_encode_from_buffer)(it.own, from, count, stride);
}

// ---- the earlier calls, without objects

EXPORT jpegls_errc JpegLsReadHeader(const void *bytes, size_t count, JlsParameters *params, char *message) noexcept
{
    return CHARLS(JpegLsReadHeader)(bytes, count, params, message);
}

namespace {

bool decode(void *to, size_t size, const void *bytes, size_t count, const JlsParameters *params)
{
    JlsParameters found{};
    if (!bytes || !to || (params && (params->stride < 0 || params->outputBgr != 0)) ||
        CHARLS(JpegLsReadHeader)(bytes, count, &found, nullptr) != success ||
        found.interleaveMode != charls::interleave_mode::none || found.allowedLossyError != 0 ||
        found.colorTransformation != charls::color_transformation::none)
        return false;
    const charls_frame_info frame{uint32_t(found.width), uint32_t(found.height), found.bitsPerSample, found.components};
    return decode(bytes, count, to, size, planes_of(frame, params ? params->stride : 0));
}

bool encode(void *to, size_t size, size_t *written, const void *from, size_t count, const JlsParameters *params)
{
    if (!to || !written || !params || params->width < 0 || params->height < 0 || params->bitsPerSample < 0 ||
        params->components < 0 || params->stride < 0 || params->jfif.version != 0 || params->allowedLossyError != 0 ||
        params->interleaveMode != charls::interleave_mode::none ||
        params->colorTransformation != charls::color_transformation::none || !is_zero(params->custom))
        return false;
    const charls_frame_info frame{uint32_t(params->width), uint32_t(params->height), params->bitsPerSample, params->components};
    return encode(from, count, planes_of(frame, params->stride), true, {static_cast<uint8_t *>(to), size, 0}, *written);
}

} // namespace

EXPORT jpegls_errc JpegLsDecode(void *to, size_t size, const void *bytes, size_t count, const JlsParameters *params,
                                char *message) noexcept
{
    if (!decode(to, size, bytes, count, params)) {
        ++jlsrec::counts.decoded_there;
        return CHARLS(JpegLsDecode)(to, size, bytes, count, params, message);
    }
    if (message)
        message[0] = 0;
    ++jlsrec::counts.decoded;
    return success;
}

EXPORT jpegls_errc JpegLsDecodeRect(void *to, size_t size, const void *bytes, size_t count, JlsRect rectangle,
                                    const JlsParameters *params, char *message) noexcept
{
    ++jlsrec::counts.decoded_there;
    return CHARLS(JpegLsDecodeRect)(to, size, bytes, count, rectangle, params, message);
}

EXPORT jpegls_errc JpegLsEncode(void *to, size_t size, size_t *written, const void *from, size_t count,
                                const JlsParameters *params, char *message) noexcept
{
    if (!encode(to, size, written, from, count, params)) {
        ++jlsrec::counts.encoded_there;
        return CHARLS(JpegLsEncode)(to, size, written, from, count, params, message);
    }
    if (message)
        message[0] = 0;
    ++jlsrec::counts.encoded;
    return success;
}

// ---- what isn't of a codestream

EXPORT jpegls_errc charls_validate_spiff_header(const charls_spiff_header *header, const charls_frame_info *frame) noexcept
{
    return CHARLS(charls_validate_spiff_header)(header, frame);
}

EXPORT const char *charls_get_error_message(jpegls_errc error) { return CHARLS(charls_get_error_message)(error); }

EXPORT const std::error_category *charls_get_jpegls_category() { return CHARLS(charls_get_jpegls_category)(); }

EXPORT const char *charls_get_version_string() { return CHARLS(charls_get_version_string)(); }

EXPORT void charls_get_version_number(int32_t *major, int32_t *minor, int32_t *patch)
{
    CHARLS(charls_get_version_number)(major, minor, patch);
}
