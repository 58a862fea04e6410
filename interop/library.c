/* Holds libjlsrec against CharLS, each by its C API, both ways: what one encodes the other decodes to the same samples.
 *
 * Pictures of 1 and 3 components, of 2 to 16 bits, with maxval 2^P - 1, of sides from 1 on: noise, steps and flat fields.
 * CharLS codes without interleaving, as libjlsrec does, and wants colour plane by plane. Prints a line for each difference;
 * the last line counts all. */
#include <charls/charls.h>
#include <jlsrec.h>

#include <stdio.h>
#include <stdlib.h>
#include <string.h>

static unsigned passed, failed;

static void count(int holds, const jlsrec_form *form, const char *what) {
    holds ? passed++ : failed++;
    if (!holds) printf("FAILED %u by %u of %u up to %u: %s\n", form->width, form->height, form->components, form->maxval, what);
}

static void *allocated(size_t size) {
    void *block = calloc(size ? size : 1, 1);
    if (!block) exit(3);
    return block;
}

/* The samples plane by plane in so many bytes each, or back pixel by pixel. */
static void turn(const jlsrec_form *form, const void *from, void *to, size_t size, int to_planes) {
    size_t pixels = (size_t)form->width * form->height, components = form->components;
    for (size_t pixel = 0; pixel < pixels; pixel++)
        for (size_t c = 0; c < components; c++) {
            size_t plane = c * pixels + pixel, mixed = pixel * components + c;
            memcpy((char *)to + size * (to_planes ? plane : mixed), (const char *)from + size * (to_planes ? mixed : plane), size);
        }
}

static size_t theirs_encode(const jlsrec_form *form, const void *planes, size_t bytes_of_samples, unsigned bits, uint8_t *bytes, size_t room) {
    charls_jpegls_encoder *encoder = charls_jpegls_encoder_create();
    charls_frame_info frame = {form->width, form->height, (int32_t)bits, (int32_t)form->components};
    size_t written = 0;
    int failed_call = charls_jpegls_encoder_set_frame_info(encoder, &frame) ||
                      charls_jpegls_encoder_set_interleave_mode(encoder, CHARLS_INTERLEAVE_MODE_NONE) ||
                      charls_jpegls_encoder_set_destination_buffer(encoder, bytes, room) ||
                      charls_jpegls_encoder_encode_from_buffer(encoder, planes, bytes_of_samples, 0) ||
                      charls_jpegls_encoder_get_bytes_written(encoder, &written);
    charls_jpegls_encoder_destroy(encoder);
    return failed_call ? 0 : written;
}

static int theirs_decode(const uint8_t *bytes, size_t count, void *planes, size_t bytes_of_samples) {
    charls_jpegls_decoder *decoder = charls_jpegls_decoder_create();
    int failed_call = charls_jpegls_decoder_set_source_buffer(decoder, bytes, count) ||
                      charls_jpegls_decoder_read_header(decoder) ||
                      charls_jpegls_decoder_decode_to_buffer(decoder, planes, bytes_of_samples, 0);
    charls_jpegls_decoder_destroy(decoder);
    return !failed_call;
}

static void both_ways(unsigned components, unsigned width, unsigned height, unsigned bits, unsigned kind) {
    jlsrec_form form = {components, width, height, (1u << bits) - 1, 0, 0, 0, 0}, found;
    jlsrec_fault fault;
    size_t samples = (size_t)width * height * components, size = bits <= 8 ? 1 : 2, written = 0, used = 0;
    size_t room = jlsrec_bound(components, width, height, form.maxval) + 1024;
    uint8_t *raw = allocated(samples * size), *planes = allocated(samples * size), *back = allocated(samples * size);
    uint8_t *ours = allocated(room), *theirs = allocated(room);
    for (size_t i = 0; i < samples; i++) {
        unsigned noise = rand() >> 4, step = (unsigned)(i / components % width * 7 + i / components / width * 3);
        unsigned value = (kind == 0 ? noise : kind == 1 ? step : kind == 2 ? (i % 97 == 0) * noise : form.maxval - noise % 3) & form.maxval;
        if (size == 1) raw[i] = (uint8_t)value;
        else memcpy(raw + 2 * i, &(uint16_t){(uint16_t)value}, 2);
    }
    turn(&form, raw, planes, size, 1);

    uint32_t status = size == 1 ? jlsrec_encode_8(&form, raw, samples, 0, ours, room, &written)
                                : jlsrec_encode_16(&form, (const uint16_t *)raw, samples, 0, ours, room, &written);
    count(status == JLSREC_OK, &form, "jlsrec encodes");
    count(theirs_decode(ours, written, back, samples * size) && !memcmp(back, planes, samples * size), &form, "CharLS decodes what jlsrec encoded");

    size_t coded = theirs_encode(&form, planes, samples * size, bits, theirs, room);
    count(coded > 0, &form, "CharLS encodes");
    memset(back, 0, samples * size);
    status = size == 1 ? jlsrec_decode_8(theirs, coded, back, samples, &found, &used, &fault)
                       : jlsrec_decode_16(theirs, coded, (uint16_t *)back, samples, &found, &used, &fault);
    count(status == JLSREC_OK && used == coded && !memcmp(back, raw, samples * size), &form, "jlsrec decodes what CharLS encoded");
    count(jlsrec_read_form(theirs, coded, &found, &fault) == JLSREC_OK && found.width == width && found.height == height &&
              found.components == components && found.maxval == form.maxval, &form, "jlsrec reads the form of what CharLS encoded");
    free(raw), free(planes), free(back), free(ours), free(theirs);
}

int main(void) {
    static const unsigned sides[][2] = {{1, 1}, {2, 1}, {1, 5}, {7, 3}, {64, 64}, {65, 31}, {300, 200}};
    for (unsigned bits = 2; bits <= 16; bits++)
        for (unsigned components = 1; components <= 3; components += 2)
            for (unsigned side = 0; side < sizeof sides / sizeof *sides; side++)
                for (unsigned kind = 0; kind < 4; kind++) both_ways(components, sides[side][0], sides[side][1], bits, kind);
    printf("%u passed, %u failed\n", passed, failed);
    return failed != 0;
}
