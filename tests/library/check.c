/* Tests of libjlsrec from C. Each of these counts its cases, and says at its end how many passed:
 *
 *     check film FILM CODED [T1 T2 T3 RESET]    each frame of FILM, whose codestreams CODED has, in and out, by strides
 *                                               and rooms
 *     check statuses            each refusal of encoding
 *     check faults FOLDER       each fault of decoding; leaves the bytes in FOLDER
 *     check texts               what is said of each status
 *     check memory FILM         each request for memory refused in turn (linked with malloc and realloc wrapped)
 *     check threads FILM        eight threads at once, apart, and with one input and adjoining outputs
 *     check mutate PROGRAM SEED COUNT FILE..    changed codestreams, beside what PROGRAM play makes of them
 *
 * and `check play FILE` does what the command `jlsrec play FILE` does, by the library. */
#define _GNU_SOURCE
#include <jlsrec.h>

#include <errno.h>
#include <pthread.h>
#include <stdarg.h>
#include <stdbool.h>
#include <stdio.h>
#include <stdlib.h>
#include <string.h>
#include <sys/wait.h>
#include <unistd.h>

static unsigned passed, failed;

static void count(bool holds, const char *format, ...) {
    if (holds) {
        passed++;
        return;
    }
    failed++;
    va_list words;
    va_start(words, format);
    printf("FAILED ");
    vprintf(format, words);
    printf("\n");
    va_end(words);
}

static void *allocated(size_t size) {
    void *memory = malloc(size ? size : 1);
    if (!memory) {
        fprintf(stderr, "check: no memory\n");
        exit(3);
    }
    return memory;
}

/* ---- memory with guards on both sides */

#define GUARD 64

struct guarded {
    uint8_t *all, *bytes;
    size_t size;
};

static uint8_t pattern(size_t place) { return (uint8_t)(place * 31 + 7); }

static struct guarded guarded(size_t size) {
    struct guarded g = {allocated(size + 2 * GUARD), NULL, size};
    g.bytes = g.all + GUARD;
    for (size_t i = 0; i < size + 2 * GUARD; i++) g.all[i] = pattern(i);
    return g;
}

/* Whether nothing was written but the first bytes. */
static bool kept_after(const struct guarded *g, size_t first) {
    for (size_t i = 0; i < g->size + 2 * GUARD; i++)
        if ((i < GUARD || i >= GUARD + first) && g->all[i] != pattern(i)) return false;
    return true;
}

/* ---- files and films */

struct bytes {
    uint8_t *bytes;
    size_t count;
};

static struct bytes read_file(const char *name) {
    FILE *file = fopen(name, "rb");
    if (!file || fseek(file, 0, SEEK_END)) {
        perror(name);
        exit(3);
    }
    struct bytes whole = {NULL, (size_t)ftell(file)};
    rewind(file);
    whole.bytes = allocated(whole.count);
    if (fread(whole.bytes, 1, whole.count, file) != whole.count) exit(3);
    fclose(file);
    return whole;
}

static void write_file(const char *name, const uint8_t *bytes, size_t count) {
    FILE *file = fopen(name, "wb");
    if (!file || fwrite(bytes, 1, count, file) != count || fclose(file)) {
        perror(name);
        exit(3);
    }
}

struct picture {
    jlsrec_form form;
    uint16_t *samples;
    uint8_t *small; /* the same as bytes, if they are */
    size_t count;
};

/* The next image of a film with plain headers; false at its end. */
static bool next_picture(const struct bytes *film, size_t *at, struct picture *p) {
    if (*at == film->count) return false;
    unsigned kind, width, height, maxval;
    int header;
    char text[64] = {0};
    memcpy(text, film->bytes + *at, film->count - *at < 63 ? film->count - *at : 63);
    if (sscanf(text, "P%u %u %u %u%n", &kind, &width, &height, &maxval, &header) != 4) exit(3);
    const uint8_t *raster = film->bytes + *at + header + 1;
    memset(p, 0, sizeof *p);
    p->form = (jlsrec_form){kind == 6 ? 3 : 1, width, height, maxval, 0, 0, 0, 0};
    p->count = (size_t)width * height * p->form.components;
    p->samples = allocated(2 * p->count);
    p->small = allocated(p->count);
    for (size_t i = 0; i < p->count; i++) {
        p->samples[i] = maxval > 255 ? raster[2 * i] << 8 | raster[2 * i + 1] : raster[i];
        p->small[i] = (uint8_t)p->samples[i];
    }
    *at += header + 1 + p->count * (maxval > 255 ? 2 : 1);
    return true;
}

static void release(struct picture *p) {
    free(p->samples);
    free(p->small);
}

/* ---- both widths by one name */

static uint32_t encode(bool eight, const jlsrec_form *form, const void *samples, size_t count, size_t stride, uint8_t *bytes,
                       size_t room, size_t *written) {
    return eight ? jlsrec_encode_8(form, samples, count, stride, bytes, room, written)
                 : jlsrec_encode_16(form, samples, count, stride, bytes, room, written);
}

static uint32_t decode(bool eight, const uint8_t *bytes, size_t count, void *samples, size_t room, jlsrec_form *form,
                       size_t *used, jlsrec_fault *fault) {
    return eight ? jlsrec_decode_8(bytes, count, samples, room, form, used, fault)
                 : jlsrec_decode_16(bytes, count, samples, room, form, used, fault);
}

static uint32_t encode_planes(bool eight, const jlsrec_form *form, const void *samples, size_t count, size_t stride,
                              uint8_t *bytes, size_t room, size_t *written) {
    return eight ? jlsrec_encode_planes_8(form, samples, count, stride, bytes, room, written)
                 : jlsrec_encode_planes_16(form, samples, count, stride, bytes, room, written);
}

static uint32_t decode_planes(bool eight, const uint8_t *bytes, size_t count, void *samples, size_t room, size_t stride,
                              jlsrec_form *form, size_t *used, jlsrec_fault *fault) {
    return eight ? jlsrec_decode_planes_8(bytes, count, samples, room, stride, form, used, fault)
                 : jlsrec_decode_planes_16(bytes, count, samples, room, stride, form, used, fault);
}

static bool same_form(const jlsrec_form *a, const jlsrec_form *b) { return !memcmp(a, b, sizeof *a); }

/* The form with the default of each coding parameter that it leaves open (T.87 C.2.4.1.1). */
static jlsrec_form in_force(const jlsrec_form *asked) {
    jlsrec_form f = *asked;
    uint32_t factor = f.maxval >= 128 ? ((f.maxval < 4095 ? f.maxval : 4095) + 128) / 256 : 256 / (f.maxval + 1);
    uint32_t t1 = f.maxval >= 128 ? factor + 2 : 3 / factor > 2 ? 3 / factor : 2;
    uint32_t t2 = f.maxval >= 128 ? 4 * factor + 3 : 7 / factor > 3 ? 7 / factor : 3;
    uint32_t t3 = f.maxval >= 128 ? 17 * factor + 4 : 21 / factor > 4 ? 21 / factor : 4;
    t1 = t1 > f.maxval || t1 < 1 ? 1 : t1;
    t2 = t2 > f.maxval || t2 < t1 ? t1 : t2;
    t3 = t3 > f.maxval || t3 < t2 ? t2 : t3;
    if (!f.t1) f.t1 = t1;
    if (!f.t2) f.t2 = t2;
    if (!f.t3) f.t3 = t3;
    if (!f.reset) f.reset = 64;
    return f;
}

static const jlsrec_form no_form;
static const jlsrec_fault no_fault;

/* ---- sizes of codestreams, by a walk of this test's own */

/* The size of the codestream at the front, byte by byte (T.81 B.1.1 and B.2; T.87 C.1), or why its markers don't get to
 * EOI. */
static uint32_t walked(const uint8_t *bytes, size_t count, size_t *size, jlsrec_fault *fault) {
    size_t at = 0;
    uint8_t byte = 0;
#define NEXT                                   \
    do {                                       \
        if (at == count) return JLSREC_TRUNCATED; \
        byte = bytes[at++];                    \
    } while (0)
    NEXT;
    if (byte != 0xFF) return JLSREC_NO_SOI;
    NEXT;
    if (byte != 0xD8) return JLSREC_NO_SOI;
    for (;;) {
        NEXT;
        if (byte != 0xFF) return JLSREC_BAD_SEGMENT;
        do NEXT;
        while (byte == 0xFF);
        if (byte == 0) return JLSREC_BAD_SEGMENT;
        uint8_t code = byte;
        if (code == 0xD9) {
            *size = at;
            return JLSREC_OK;
        }
        if (code != 0xDA && code != 0xF7 && code != 0xF8 && code != 0xFE && (code & 0xF0) != 0xE0) {
            fault->marker = code;
            return JLSREC_UNSUPPORTED_MARKER;
        }
        NEXT;
        size_t length = byte;
        NEXT;
        length = length << 8 | byte;
        if (length < 2) return JLSREC_BAD_SEGMENT;
        for (length -= 2; length > 0; length--) NEXT;
        while (code == 0xDA) {
            NEXT;
            if (byte != 0xFF) continue;
            NEXT;
            if (byte < 0x80) continue;
            at -= 2;
            break;
        }
    }
#undef NEXT
}

/* The sizes of the codestreams at the front are those of the walk, and each is what jlsrec_extent says there. */
static void sized(const char *name, const uint8_t *bytes, size_t size, size_t room) {
    struct guarded out = guarded(room * sizeof(size_t));
    jlsrec_fault fault, want_fault = {0, 0, 0};
    memset(&fault, 0x55, sizeof fault);
    size_t found = 12345, at = 0, want = 0;
    uint32_t status = jlsrec_extents(bytes, size, (size_t *)out.bytes, room, &found, &fault), want_status = JLSREC_OK;
    bool holds = true;
    for (; at < size; want++) {
        size_t one = 0, alone, given;
        want_status = want == room ? JLSREC_NO_ROOM : walked(bytes + at, size - at, &one, &want_fault);
        if (want_status != JLSREC_OK) break;
        memcpy(&given, out.bytes + want * sizeof given, sizeof given);
        holds = holds && given == one && jlsrec_extent(bytes + at, size - at, &alone) == JLSREC_OK && alone == one;
        at += one;
    }
    holds = holds && status == want_status && found == want && !memcmp(&fault, &want_fault, sizeof fault) &&
            kept_after(&out, want * sizeof(size_t));
    count(holds, "%s: sizes in %zu bytes, room %zu: status %u in place of %u, %zu in place of %zu", name, size, room, status,
          want_status, found, want);
    free(out.all);
}

/* ---- strictness */

/* What is said of the codestream at the front, and of which component. */
static bool strict_is(const uint8_t *bytes, size_t size, uint32_t want, size_t want_used, jlsrec_fault details) {
    jlsrec_fault fault;
    memset(&fault, 0x55, sizeof fault);
    size_t used = 12345;
    return jlsrec_strict(bytes, size, &used, &fault) == want && used == want_used && !memcmp(&fault, &details, sizeof fault);
}

/* What encoding gives of a codestream that is decoded: its data alone are compared, found by the walk above. */
static uint32_t strictness(const uint8_t *bytes, size_t size, size_t *used, jlsrec_fault *fault) {
    static uint16_t samples[1 << 20];
    jlsrec_form form;
    uint32_t status = jlsrec_decode_16(bytes, size, samples, sizeof samples / sizeof *samples, &form, used, fault);
    if (status != JLSREC_OK) return status;
    size_t room = jlsrec_bound(form.components, form.width, form.height, form.maxval), written;
    uint8_t *again = allocated(room);
    if (jlsrec_encode_16(&form, samples, (size_t)form.width * form.height * form.components, 0, again, room, &written)) exit(3);
    size_t at = 2, other = 2;
    for (uint32_t component = 0; component < form.components && status == JLSREC_OK; component++) {
        size_t lengths[2];
        const uint8_t *data[2];
        for (int i = 0; i < 2; i++) {
            const uint8_t *all = i ? again : bytes;
            size_t *place = i ? &other : &at;
            for (uint8_t code = 0; code != 0xDA;) {
                while (all[*place] == 0xFF) ++*place;
                code = all[(*place)++];
                *place += (size_t)all[*place] << 8 | all[*place + 1];
            }
            data[i] = all + *place;
            while (all[*place] != 0xFF || all[*place + 1] < 0x80) ++*place;
            lengths[i] = (size_t)(all + *place - data[i]);
        }
        if (lengths[0] == lengths[1] && !memcmp(data[0], data[1], lengths[0])) continue;
        status = JLSREC_NOT_STRICT;
        fault->component = component;
    }
    free(again);
    return status;
}

static void strict_alike(const char *name, const uint8_t *bytes, size_t size) {
    size_t used;
    jlsrec_fault fault = {0, 0, 0};
    uint32_t want = strictness(bytes, size, &used, &fault);
    if (want == JLSREC_NO_ROOM) return;
    count(strict_is(bytes, size, want, used, fault), "%s: strictness of %zu bytes isn't %u", name, size, want);
}

/* ---- in and out */

/* Encoding into so much room does what is to be done. */
static bool encodes(bool eight, const jlsrec_form *form, const void *samples, size_t count, size_t stride, const uint8_t *want,
                    size_t need, size_t room) {
    struct guarded out = guarded(room);
    size_t written = 12345;
    uint32_t status = encode(eight, form, samples, count, stride, out.bytes, room, &written);
    bool holds = written == need;
    if (room >= need)
        holds = holds && status == JLSREC_OK && !memcmp(out.bytes, want, need) && kept_after(&out, need);
    else
        holds = holds && status == JLSREC_NO_ROOM && kept_after(&out, 0);
    free(out.all);
    return holds;
}

static bool decodes(bool eight, const uint8_t *bytes, size_t count, size_t used_wanted, const struct picture *p,
                    const jlsrec_form *asked, size_t room) {
    size_t size = eight ? 1 : 2, used = 12345;
    struct guarded out = guarded(room * size);
    jlsrec_form form;
    jlsrec_fault fault;
    memset(&form, 0x55, sizeof form);
    memset(&fault, 0x55, sizeof fault);
    uint32_t status = decode(eight, bytes, count, out.bytes, room, &form, &used, &fault);
    jlsrec_form wanted = in_force(asked), read;
    bool holds = same_form(&form, &wanted) && !memcmp(&fault, &no_fault, sizeof fault) &&
                 jlsrec_read_form(bytes, count, &read, &fault) == JLSREC_OK && same_form(&read, &wanted) &&
                 !memcmp(&fault, &no_fault, sizeof fault);
    if (eight && p->form.maxval > 255)
        holds = holds && status == JLSREC_NOT_8_BITS && used == 0 && kept_after(&out, 0);
    else if (room < p->count)
        holds = holds && status == JLSREC_NO_ROOM && used == 0 && kept_after(&out, 0);
    else
        holds = holds && status == JLSREC_OK && used == used_wanted &&
                !memcmp(out.bytes, eight ? (void *)p->small : (void *)p->samples, p->count * size) &&
                kept_after(&out, p->count * size);
    free(out.all);
    return holds;
}

/* Samples with others between the rows, that no picture may have, and so many of them that the last row just ends. */
static void *spread(bool eight, const struct picture *p, size_t stride, size_t *count) {
    size_t row = (size_t)p->form.width * p->form.components;
    *count = (p->form.height - 1) * stride + row;
    uint8_t *all = allocated(*count * (eight ? 1 : 2));
    memset(all, 0xFF, *count * (eight ? 1 : 2));
    for (size_t y = 0; y < p->form.height; y++) {
        if (eight) memcpy(all + y * stride, p->small + y * row, row);
        else memcpy(all + 2 * y * stride, p->samples + y * row, 2 * row);
    }
    return all;
}

/* ---- planes */

/* Puts the picture's samples plane by plane, with so many bytes from row to row, of which those between rows stay. */
static void put_planes(bool eight, const struct picture *p, size_t stride, uint8_t *planes) {
    uint32_t width = p->form.width, height = p->form.height, components = p->form.components;
    for (size_t c = 0; c < components; c++)
        for (size_t y = 0; y < height; y++)
            for (size_t x = 0; x < width; x++) {
                size_t place = (y * width + x) * components + c;
                uint8_t *at = planes + (c * height + y) * stride + x * (eight ? 1 : 2);
                if (eight) *at = p->small[place];
                else memcpy(at, p->samples + place, 2);
            }
}

/* Planes with so many samples more from row to row than a row has, in and out. */
static void planes(bool eight, const char *name, unsigned number, const struct picture *p, const jlsrec_form *asked,
                   const uint8_t *want, size_t need, size_t more) {
    size_t size = eight ? 1 : 2, lines = (size_t)p->form.height * p->form.components, row = p->form.width, written;
    size_t stride = (row + more) * size, many = (lines - 1) * (row + more) + row, said = more ? stride : 0;
    struct guarded from = guarded(many * size), out = guarded(need);
    put_planes(eight, p, stride, from.bytes);
    bool same = encode_planes(eight, asked, from.bytes, many, said, out.bytes, need, &written) == JLSREC_OK;
    count(same && written == need && !memcmp(out.bytes, want, need) && kept_after(&out, need), "%s, frame %u: planes, %zu more", name,
          number, more);
    free(out.all);

    out = guarded(need);
    count(encode_planes(eight, asked, from.bytes, many, said, out.bytes, need - 1, &written) == JLSREC_NO_ROOM && written == need &&
              kept_after(&out, 0),
          "%s, frame %u: planes, %zu more, no room", name, number, more);
    count(encode_planes(eight, asked, from.bytes, many - 1, said, out.bytes, need, &written) == JLSREC_TOO_FEW_SAMPLES &&
              written == 0 && kept_after(&out, 0),
          "%s, frame %u: planes, %zu more, a sample less", name, number, more);
    size_t bad[] = {(row - 1) * size, stride + 1};
    for (size_t i = 0; i < 2; i++)
        if (i == 0 ? row > 1 : !eight)
            count(encode_planes(eight, asked, from.bytes, many, bad[i], out.bytes, need, &written) == JLSREC_BAD_STRIDE &&
                      written == 0 && kept_after(&out, 0),
                  "%s, frame %u: planes, stride %zu", name, number, bad[i]);
    free(out.all);

    jlsrec_form form, wanted = in_force(asked);
    jlsrec_fault fault;
    size_t used, rooms[] = {many + 9, many, many - 1, p->count - 1};
    for (size_t i = 0; i < 4; i++) {
        struct guarded back = guarded(rooms[i] * size);
        uint32_t status = decode_planes(eight, want, need, back.bytes, rooms[i], said, &form, &used, &fault);
        bool holds = same_form(&form, &wanted) && !memcmp(&fault, &no_fault, sizeof fault);
        if (rooms[i] < many)
            holds = holds && status == JLSREC_NO_ROOM && used == 0 && kept_after(&back, 0);
        else {
            struct guarded all = guarded(rooms[i] * size);
            put_planes(eight, p, stride, all.bytes);
            holds = holds && status == JLSREC_OK && used == need && !memcmp(back.all, all.all, rooms[i] * size + 2 * GUARD);
            free(all.all);
        }
        count(holds, "%s, frame %u: to planes, %zu more, room %zu of %zu", name, number, more, rooms[i], many);
        free(back.all);
    }
    for (size_t i = 0; i < 2; i++)
        if (i == 0 ? row > 1 : !eight) {
            struct guarded back = guarded(many * size);
            count(decode_planes(eight, want, need, back.bytes, many, bad[i], &form, &used, &fault) == JLSREC_BAD_STRIDE &&
                      used == 0 && same_form(&form, &wanted) && !memcmp(&fault, &no_fault, sizeof fault) && kept_after(&back, 0),
                  "%s, frame %u: to planes, stride %zu", name, number, bad[i]);
            free(back.all);
        }
    struct guarded back = guarded(many * size);
    uint32_t status = decode_planes(eight, want, need - 1, back.bytes, many, said, &form, &used, &fault);
    count(status == JLSREC_TRUNCATED && used == 0 && same_form(&form, &no_form) && kept_after(&back, more ? 0 : many * size),
          "%s, frame %u: to planes, %zu more, truncated", name, number, more);
    free(back.all);
    free(from.all);
}

static void film(const char *name, const char *coded_name, char **presets) {
    struct bytes images = read_file(name), coded = read_file(coded_name);
    size_t at = 0, from = 0;
    struct picture p;
    for (unsigned number = 0; next_picture(&images, &at, &p); number++) {
        const uint8_t *want = coded.bytes + from;
        size_t need = 0, row = (size_t)p.form.width * p.form.components;
        size_t left = coded.count - from;
        jlsrec_form asked = p.form;
        uint32_t *chosen[] = {&asked.t1, &asked.t2, &asked.t3, &asked.reset};
        for (int i = 0; i < 4 && presets[i]; i++) *chosen[i] = strtoul(presets[i], NULL, 10);
        count(jlsrec_extent(want, left, &need) == JLSREC_OK && need <= left, "%s, frame %u: extent", name, number);
        uint64_t bound = jlsrec_bound(p.form.components, p.form.width, p.form.height, p.form.maxval);
        count(need <= bound, "%s, frame %u: bound", name, number);
        count(strict_is(want, left, JLSREC_OK, need, no_fault), "%s, frame %u: strict", name, number);
        for (int eight = 0; eight < 2; eight++) {
            const void *samples = eight ? (void *)p.small : (void *)p.samples;
            if (eight && p.form.maxval > 255) {
                struct guarded out = guarded(need);
                size_t written = 1;
                count(encode_planes(true, &asked, samples, p.count, 1, out.bytes, need, &written) == JLSREC_NOT_8_BITS &&
                          written == 0 && kept_after(&out, 0),
                      "%s, frame %u: planes, not 8 bits", name, number);
                jlsrec_form form, wanted = in_force(&asked);
                jlsrec_fault fault;
                size_t used = 1;
                count(decode_planes(true, want, need, out.bytes, 0, 1, &form, &used, &fault) == JLSREC_NOT_8_BITS && used == 0 &&
                          same_form(&form, &wanted) && kept_after(&out, 0),
                      "%s, frame %u: to planes, not 8 bits", name, number);
                written = 1;
                count(encode(true, &asked, samples, p.count, 0, out.bytes, need, &written) == JLSREC_NOT_8_BITS &&
                          written == 0 && kept_after(&out, 0),
                      "%s, frame %u: not 8 bits", name, number);
                free(out.all);
                count(decodes(true, want, left, need, &p, &asked, p.count), "%s, frame %u: decoded to 8 bits", name, number);
                continue;
            }
            size_t first = need < 200 ? 0 : need - 3;
            for (size_t room = first; room <= need + 3; room++)
                count(encodes(eight, &asked, samples, p.count, 0, want, need, room), "%s, frame %u: room %zu of %zu", name,
                      number, room, need);
            count(encodes(eight, &asked, samples, p.count, row, want, need, 0), "%s, frame %u: no room", name, number);
            count(encodes(eight, &asked, samples, p.count, 0, want, need, bound), "%s, frame %u: room of bound", name, number);
            for (size_t more = 0; more < 3; more++) {
                size_t stride = row + more * 5, spread_count, written;
                void *others = spread(eight, &p, stride, &spread_count);
                count(encodes(eight, &asked, others, spread_count, stride, want, need, need), "%s, frame %u: stride %zu", name,
                      number, stride);
                struct guarded out = guarded(need);
                count(encode(eight, &asked, others, spread_count - 1, stride, out.bytes, need, &written) ==
                              JLSREC_TOO_FEW_SAMPLES && written == 0 && kept_after(&out, 0),
                      "%s, frame %u: a sample less, stride %zu", name, number, stride);
                count(row == 1 || encode(eight, &asked, others, spread_count, row - 1, out.bytes, need, &written) ==
                              JLSREC_BAD_STRIDE,
                      "%s, frame %u: stride less than a row", name, number);
                free(out.all);
                free(others);
            }
            for (size_t more = 0; more < 4; more += 1 + more) planes(eight, name, number, &p, &asked, want, need, more);
            size_t rooms[] = {0, 1, p.count - 1, p.count, p.count + 1, p.count + 100};
            for (size_t i = 0; i < sizeof rooms / sizeof *rooms; i++)
                count(decodes(eight, want, left, need, &p, &asked, rooms[i]), "%s, frame %u: decoded, room %zu", name, number, rooms[i]);
            count(decodes(eight, want, need, need, &p, &asked, p.count), "%s, frame %u: decoded alone", name, number);
        }
        for (size_t cut = need < 300 ? 0 : need - 300; cut < need; cut++) {
            struct guarded out = guarded(2 * p.count);
            jlsrec_form form;
            jlsrec_fault fault;
            size_t used, extent;
            uint32_t status = jlsrec_decode_16(want, cut, (uint16_t *)out.bytes, p.count, &form, &used, &fault);
            /* The picture's own samples may have been written. */
            bool holds = status == JLSREC_TRUNCATED && used == 0 && same_form(&form, &no_form) && kept_after(&out, 2 * p.count) &&
                         jlsrec_extent(want, cut, &extent) == JLSREC_OK && extent == cut;
            count(holds, "%s, frame %u: cut after %zu bytes", name, number, cut);
            free(out.all);
        }
        from += need;
        release(&p);
    }
    count(from == coded.count, "%s: %zu bytes of %zu", name, from, coded.count);
    for (size_t room = 0; room < 6; room++) sized(name, coded.bytes, coded.count, room);
    for (size_t cut = 0; cut < coded.count; cut += 1 + coded.count / 300) sized(name, coded.bytes, cut, 9);
    free(images.bytes);
    free(coded.bytes);
}

/* ---- refusals of encoding */

static void refuses_in(size_t room, const char *name, jlsrec_form form, size_t samples_count, size_t stride, uint16_t value,
                       uint32_t want) {
    struct guarded out = guarded(room);
    uint16_t *samples = allocated(2 * samples_count);
    for (size_t i = 0; i < samples_count; i++) samples[i] = value;
    size_t written = 99;
    uint32_t status = jlsrec_encode_16(&form, samples, samples_count, stride, out.bytes, room, &written);
    bool holds = status == want && (status == JLSREC_OK ? written > 0 && kept_after(&out, written) : written == 0 && kept_after(&out, 0));
    count(holds, "%s: status %u in place of %u", name, status, want);
    free(samples);
    free(out.all);
}

static void refuses(const char *name, jlsrec_form form, size_t samples_count, size_t stride, uint16_t value, uint32_t want) {
    refuses_in(4096, name, form, samples_count, stride, value, want);
}

static void statuses(void) {
    jlsrec_form good = {1, 2, 2, 4095, 0, 0, 0, 0}, form;
#define WITH(changes) (form = good, changes, form)
    refuses("good", good, 4, 0, 4095, JLSREC_OK);
    refuses("colour", WITH(form.components = 3), 12, 0, 1, JLSREC_OK);
    refuses("0 components", WITH(form.components = 0), 4, 0, 0, JLSREC_BAD_COMPONENTS);
    refuses("2 components", WITH(form.components = 2), 4, 0, 0, JLSREC_BAD_COMPONENTS);
    refuses("4 components", WITH(form.components = 4), 4, 0, 0, JLSREC_BAD_COMPONENTS);
    refuses("2^16 + 1 components", WITH(form.components = 65537), 4, 0, 0, JLSREC_BAD_COMPONENTS);
    refuses("width 0", WITH(form.width = 0), 4, 0, 0, JLSREC_BAD_SIZE);
    refuses("height 0", WITH(form.height = 0), 4, 0, 0, JLSREC_BAD_SIZE);
    refuses("width 65536", WITH(form.width = 65536), 4, 0, 0, JLSREC_BAD_SIZE);
    refuses("height 65538", WITH(form.height = 65538), 4, 0, 0, JLSREC_BAD_SIZE);
    refuses("2^28 + 4096 samples", WITH((form.width = 4097, form.height = 65536 - 1)), 4, 0, 0, JLSREC_TOO_MANY_SAMPLES);
    refuses("maxval 0", WITH(form.maxval = 0), 4, 0, 0, JLSREC_BAD_MAXVAL);
    refuses("maxval 65536", WITH(form.maxval = 65536), 4, 0, 0, JLSREC_BAD_MAXVAL);
    refuses("maxval 65535", WITH(form.maxval = 65535), 4, 0, 65535, JLSREC_OK);
    refuses("T1 4096", WITH(form.t1 = 4096), 4, 0, 0, JLSREC_BAD_T1);
    refuses("T1 65536", WITH(form.t1 = 65536), 4, 0, 0, JLSREC_BAD_T1);
    refuses("T1 2^32 - 1", WITH(form.t1 = 4294967295u), 4, 0, 0, JLSREC_BAD_T1);
    refuses("T1 over the default T2", WITH(form.t1 = 68), 4, 0, 0, JLSREC_BAD_T2);
    refuses("T2 below T1", WITH((form.t1 = 20, form.t2 = 19)), 4, 0, 0, JLSREC_BAD_T2);
    refuses("T2 65536", WITH(form.t2 = 65536), 4, 0, 0, JLSREC_BAD_T2);
    refuses("T3 below T2", WITH((form.t2 = 300, form.t3 = 299)), 4, 0, 0, JLSREC_BAD_T3);
    refuses("T3 65536", WITH(form.t3 = 65536), 4, 0, 0, JLSREC_BAD_T3);
    refuses("RESET 2", WITH(form.reset = 2), 4, 0, 0, JLSREC_BAD_RESET);
    refuses("RESET 4096", WITH(form.reset = 4096), 4, 0, 0, JLSREC_BAD_RESET);
    refuses("RESET 65536", WITH(form.reset = 65536), 4, 0, 0, JLSREC_BAD_RESET);
    refuses("RESET 4095", WITH(form.reset = 4095), 4, 0, 0, JLSREC_OK);
    refuses("T1, T2, T3 and RESET at once", WITH((form.t1 = 1, form.t2 = 1, form.t3 = 4095, form.reset = 3)), 4, 0, 0, JLSREC_OK);
    refuses("stride 1", good, 4, 1, 0, JLSREC_BAD_STRIDE);
    refuses("stride 3 with 4", good, 4, 3, 0, JLSREC_TOO_FEW_SAMPLES);
    refuses("stride 3 with 5", good, 5, 3, 0, JLSREC_OK);
    refuses("stride 2^64 - 1", good, 5, SIZE_MAX, 0, JLSREC_TOO_FEW_SAMPLES);
    refuses("stride 2^63", WITH(form.height = 3), 6, SIZE_MAX / 2 + 1, 0, JLSREC_TOO_FEW_SAMPLES);
    refuses("one row, any stride", WITH(form.height = 1), 2, SIZE_MAX, 0, JLSREC_OK);
    refuses("3 samples", good, 3, 0, 0, JLSREC_TOO_FEW_SAMPLES);
    refuses("no samples", good, 0, 0, 0, JLSREC_TOO_FEW_SAMPLES);
    refuses("more samples", good, 9, 0, 0, JLSREC_OK);
    refuses("sample 4096", good, 4, 0, 4096, JLSREC_SAMPLE_TOO_LARGE);
    for (size_t room = 0; room < 60; room++) refuses_in(room, "a sample before the room", good, 4, 0, 4096, JLSREC_SAMPLE_TOO_LARGE);
    /* the first that is so */
    refuses("all wrong", (jlsrec_form){2, 0, 0, 0, 70000, 0, 0, 1}, 0, 1, 0, JLSREC_BAD_COMPONENTS);
    refuses("all but components", (jlsrec_form){1, 0, 1, 0, 70000, 0, 0, 1}, 0, 1, 0, JLSREC_BAD_SIZE);
    refuses("parameters before the stride", WITH(form.reset = 1), 0, 1, 9999, JLSREC_BAD_RESET);
    refuses("stride before the count", good, 0, 1, 9999, JLSREC_BAD_STRIDE);
    refuses("count before the samples", good, 3, 0, 9999, JLSREC_TOO_FEW_SAMPLES);

    /* Large pictures are coded where their codestreams are to go, if the room is that of their bound. */
    jlsrec_form large = {1, 4096, 1024, 65534, 0, 0, 0, 0};
    size_t bound = jlsrec_bound(1, 4096, 1024, 65534), many = (size_t)4096 * 1024;
    refuses_in(bound, "a large picture", large, many, 0, 65534, JLSREC_OK);
    refuses_in(bound, "sample 65535 of a large picture", large, many, 0, 65535, JLSREC_SAMPLE_TOO_LARGE);
    refuses_in(bound - 1, "a large picture, less room", large, many, 0, 65534, JLSREC_OK);
    refuses_in(bound - 1, "sample 65535 of a large picture, less room", large, many, 0, 65535, JLSREC_SAMPLE_TOO_LARGE);
    refuses_in(bound, "a large picture, a sample less", large, many - 1, 0, 65534, JLSREC_TOO_FEW_SAMPLES);
    refuses_in(0, "sample 65535 of a large picture, no room", large, many, 0, 65535, JLSREC_SAMPLE_TOO_LARGE);

    /* T.87's Annex H.3: the bytes that stand there, and those of a form of the same picture with its defaults written out */
    const uint8_t h3[16] = {0, 0, 90, 74, 68, 50, 43, 205, 64, 145, 145, 145, 100, 145, 145, 145};
    const uint8_t scan[] = {0xC0, 0x00, 0x00, 0x6C, 0x80, 0x20, 0x8E, 0x01, 0xC0, 0x00, 0x00, 0x57, 0x40, 0x00, 0x00, 0x6E,
                            0xE6, 0x00, 0x00, 0x01, 0xBC, 0x18, 0x00, 0x00, 0x05, 0xD8, 0x00, 0x00, 0x91, 0x60, 0xFF, 0xD9};
    jlsrec_form annex = {1, 4, 4, 255, 0, 0, 0, 0}, written_out = {1, 4, 4, 255, 3, 7, 21, 64};
    uint8_t out[200], other[200];
    size_t written = 0, again = 0;
    uint32_t status = jlsrec_encode_8(&annex, h3, 16, 0, out, sizeof out, &written);
    count(status == JLSREC_OK && written == 25 + sizeof scan && !memcmp(out + 25, scan, sizeof scan), "Annex H.3");
    status = jlsrec_encode_8(&written_out, h3, 16, 0, other, sizeof other, &again);
    count(status == JLSREC_OK && again == written && !memcmp(out, other, written), "Annex H.3, parameters written out");
    annex.maxval = 256;
    count(jlsrec_encode_8(&annex, h3, 16, 0, out, sizeof out, &written) == JLSREC_NOT_8_BITS && written == 0, "maxval 256 of 8 bits");
    annex.maxval = 200;
    count(jlsrec_encode_8(&annex, h3, 16, 0, out, sizeof out, &written) == JLSREC_SAMPLE_TOO_LARGE && written == 0, "205 of 200");

    count(jlsrec_bound(1, 4, 4, 255) > written && jlsrec_bound(1, 4, 4, 255) == 29 + 13 + 32 * 16 / 7 + 1, "bound");
    count(jlsrec_bound(2, 4, 4, 255) == 0 && jlsrec_bound(1, 0, 4, 255) == 0 && jlsrec_bound(1, 4, 65536, 255) == 0 &&
              jlsrec_bound(1, 4, 4, 0) == 0 && jlsrec_bound(1, 4, 4, 65536) == 0 && jlsrec_bound(3, 65535, 65535, 1) == 0,
          "no bound");
    count(jlsrec_bound(1, 16384, 16384, 65535) == 29 + 13 + 64 * ((uint64_t)1 << 28) / 7 + 1, "the greatest bound");
    size_t extent = 9;
    count(jlsrec_extent(out, 0, &extent) == JLSREC_OK && extent == 0, "no bytes");
    count(jlsrec_version() == 100, "version");
}

/* ---- faults */

static void faulty(const char *folder, const char *name, const uint8_t *bytes, size_t size, uint32_t want, jlsrec_fault details) {
    struct guarded out = guarded(64);
    jlsrec_form form;
    jlsrec_fault fault;
    size_t used = 9, picture = 0;
    /* only the samples of a picture whose form is known may have changed */
    if (jlsrec_read_form(bytes, size, &form, &fault) == JLSREC_OK) picture = (size_t)form.width * form.height * form.components;
    memset(&form, 0x55, sizeof form);
    memset(&fault, 0x55, sizeof fault);
    uint32_t status = jlsrec_decode_8(bytes, size, out.bytes, 64, &form, &used, &fault);
    count(status == want && !memcmp(&fault, &details, sizeof fault) && used == 0 && same_form(&form, &no_form) && kept_after(&out, picture),
          "%s: status %u, %u %u %u", name, status, fault.component, fault.marker, fault.number);
    /* decoding as many bytes as the extent has answers the same, and so does decoding to 16 bits */
    size_t extent = 0;
    uint16_t words[64];
    count(jlsrec_extent(bytes, size, &extent) == JLSREC_OK && extent <= size && (extent == 0) == (size == 0) &&
              jlsrec_decode_8(bytes, extent, out.bytes, 64, &form, &used, &fault) == want && !memcmp(&fault, &details, sizeof fault),
          "%s: %zu bytes by its extent", name, extent);
    count(jlsrec_decode_16(bytes, size, words, 64, &form, &used, &fault) == want && !memcmp(&fault, &details, sizeof fault),
          "%s: to 16 bits", name);
    for (size_t room = 0; room < 3; room++) sized(name, bytes, size, room);
    count(strict_is(bytes, size, want, 0, details), "%s: strictness", name);
    char path[4096];
    snprintf(path, sizeof path, "%s/%s.jls", folder, name);
    write_file(path, bytes, size);
    free(out.all);
}

/* a black sample, and a black pixel of colour */
static const uint8_t black[] = {0xFF, 0xD8, 0xFF, 0xF7, 0, 11, 8, 0, 1, 0, 1, 1, 1, 0x11, 0,
                                0xFF, 0xDA, 0, 8, 1, 1, 0, 0, 0, 0, 0x80, 0xFF, 0xD9};
static const uint8_t colour[] = {0xFF, 0xD8, 0xFF, 0xF7, 0, 17, 8, 0, 1, 0, 1, 3, 1, 0x11, 0, 2, 0x11, 0, 3, 0x11, 0,
                                 0xFF, 0xDA, 0, 8, 1, 1, 0, 0, 0, 0, 0x80, 0xFF, 0xDA, 0, 8, 1, 2, 0, 0, 0, 0, 0x80,
                                 0xFF, 0xDA, 0, 8, 1, 3, 0, 0, 0, 0, 0x80, 0xFF, 0xD9};

static void with_byte(const char *folder, const char *name, size_t place, uint8_t value, uint32_t want, jlsrec_fault details) {
    uint8_t bytes[sizeof black];
    memcpy(bytes, black, sizeof black);
    bytes[place] = value;
    faulty(folder, name, bytes, sizeof bytes, want, details);
}

static void with_more(const char *folder, const char *name, size_t place, const uint8_t *more, size_t size, uint32_t want, jlsrec_fault details) {
    uint8_t bytes[sizeof black + 64];
    memcpy(bytes, black, place);
    memcpy(bytes + place, more, size);
    memcpy(bytes + place + size, black + place, sizeof black - place);
    faulty(folder, name, bytes, sizeof black + size, want, details);
}

static void with_presets(const char *folder, const char *name, uint16_t maxval, uint16_t t1, uint16_t t2, uint16_t t3, uint16_t reset, uint32_t want) {
    uint16_t fields[] = {maxval, t1, t2, t3, reset};
    uint8_t segment[15] = {0xFF, 0xF8, 0, 13, 1};
    for (int i = 0; i < 5; i++) segment[5 + 2 * i] = fields[i] >> 8, segment[6 + 2 * i] = fields[i] & 255;
    with_more(folder, name, 15, segment, sizeof segment, want, no_fault);
}

static void faults(const char *folder) {
    static const struct {
        const char *name;
        size_t place;
        uint8_t value;
        uint32_t want;
        jlsrec_fault details;
    } changes[] = {
        {"first_byte", 0, 0, JLSREC_NO_SOI, {0, 0, 0}},
        {"second_byte", 1, 0xD9, JLSREC_NO_SOI, {0, 0, 0}},
        {"no_marker", 2, 0, JLSREC_BAD_SEGMENT, {0, 0, 0}},
        {"baseline", 3, 0xC0, JLSREC_UNSUPPORTED_MARKER, {0, 0xC0, 0}},
        {"restart_interval", 3, 0xDD, JLSREC_UNSUPPORTED_MARKER, {0, 0xDD, 0}},
        {"early_scan", 3, 0xDA, JLSREC_BAD_SEGMENT, {0, 0, 0}},
        {"length_1", 5, 1, JLSREC_BAD_SEGMENT, {0, 0, 0}},
        {"precision_1", 6, 1, JLSREC_BAD_SEGMENT, {0, 0, 0}},
        {"precision_17", 6, 17, JLSREC_BAD_SEGMENT, {0, 0, 0}},
        {"height_0", 8, 0, JLSREC_HEIGHT_0, {0, 0, 0}},
        {"width_0", 10, 0, JLSREC_BAD_SEGMENT, {0, 0, 0}},
        {"two_components", 11, 2, JLSREC_UNSUPPORTED_COMPONENTS, {0, 0, 2}},
        {"no_components", 11, 0, JLSREC_UNSUPPORTED_COMPONENTS, {0, 0, 0}},
        {"sampling", 13, 0x21, JLSREC_SAMPLING, {0, 0, 0}},
        {"two_in_a_scan", 19, 2, JLSREC_INTERLEAVE, {0, 0, 0}},
        {"another_component", 20, 9, JLSREC_SCAN_ORDER, {0, 0, 0}},
        {"mapping_table", 21, 1, JLSREC_MAPPING_TABLE, {0, 0, 0}},
        {"near", 22, 1, JLSREC_NEAR_LOSSLESS, {0, 0, 0}},
        {"interleave", 23, 1, JLSREC_INTERLEAVE, {0, 0, 0}},
        {"point_transform", 24, 1, JLSREC_POINT_TRANSFORM, {0, 0, 0}},
        {"no_end", 27, 0xDA, JLSREC_BAD_SEGMENT, {0, 0, 0}},
    };
    for (size_t i = 0; i < sizeof changes / sizeof *changes; i++)
        with_byte(folder, changes[i].name, changes[i].place, changes[i].value, changes[i].want, changes[i].details);

    const uint8_t other_lse[] = {0xFF, 0xF8, 0, 5, 4, 0, 0}, late[] = {0xFF, 0xF8, 0, 13, 1, 0, 255, 0, 3, 0, 7, 0, 21, 0, 64};
    const uint8_t zeros[] = {0, 0};
    with_more(folder, "lse_4", 15, other_lse, sizeof other_lse, JLSREC_LSE_ID, (jlsrec_fault){0, 0, 4});
    with_more(folder, "lse_late", 26, late, sizeof late, JLSREC_LSE_LATE, no_fault);
    with_more(folder, "leftover", 26, zeros, 2, JLSREC_LEFTOVER_BITS, no_fault);
    with_presets(folder, "preset_maxval", 256, 0, 0, 0, 0, JLSREC_PRESET_MAXVAL);
    with_presets(folder, "preset_t1", 255, 256, 0, 0, 0, JLSREC_PRESET_T1);
    with_presets(folder, "preset_t2", 255, 9, 8, 0, 0, JLSREC_PRESET_T2);
    with_presets(folder, "preset_t3", 255, 3, 7, 6, 0, JLSREC_PRESET_T3);
    with_presets(folder, "preset_reset", 255, 0, 0, 0, 2, JLSREC_PRESET_RESET);

    uint8_t bytes[sizeof colour];
    memcpy(bytes, black, 25);
    memcpy(bytes + 25, black + 26, 2);
    faulty(folder, "no_data", bytes, 27, JLSREC_BAD_CODE, no_fault);
    memcpy(bytes, colour, sizeof colour);
    memset(bytes + 7, 0xFF, 4);
    faulty(folder, "too_large", bytes, sizeof colour, JLSREC_TOO_LARGE, no_fault);
    memcpy(bytes, colour, 42);
    memcpy(bytes + 42, colour + 43, sizeof colour - 43);
    faulty(folder, "no_data_of_green", bytes, sizeof colour - 1, JLSREC_BAD_CODE, (jlsrec_fault){1, 0, 0});
    memcpy(bytes, colour, sizeof colour);
    for (size_t cut = 0; cut < sizeof colour; cut++) faulty(folder, "cut_short", bytes, cut, JLSREC_TRUNCATED, no_fault);

    /* no second codestream is taken for the first: its frame, or its fault */
    uint8_t two[2 * sizeof black + 1];
    memcpy(two, black, sizeof black);
    memcpy(two + sizeof black, black, sizeof black);
    two[sizeof black + 25] = 0x40;
    uint8_t sample[2] = {9, 9};
    jlsrec_form form;
    jlsrec_fault fault;
    size_t used, extent;
    count(jlsrec_decode_8(two, 2 * sizeof black, sample, 1, &form, &used, &fault) == JLSREC_OK && sample[0] == 0 && sample[1] == 9 &&
              used == sizeof black, "two codestreams");
    count(jlsrec_extent(two, 2 * sizeof black, &extent) == JLSREC_OK && extent == sizeof black, "extent of two");
    size_t extents[2], found;
    count(jlsrec_extents(two, 2 * sizeof black, extents, 2, &found, &fault) == JLSREC_OK && found == 2 && extents[0] == sizeof black &&
              extents[1] == sizeof black, "extents of two");
    count(jlsrec_extents(two, 2 * sizeof black, extents, 1, &found, &fault) == JLSREC_NO_ROOM && found == 1, "room for one of two");
    /* padding, one byte more, and both in the second component */
    uint8_t loose[sizeof colour + 1];
    memcpy(loose, two, sizeof black);
    count(strict_is(two, sizeof black, JLSREC_OK, sizeof black, no_fault), "a black sample is strict");
    loose[25] |= 1;
    count(strict_is(loose, sizeof black, JLSREC_NOT_STRICT, sizeof black, no_fault), "other padding");
    loose[25] = 0x80;
    memmove(loose + 27, loose + 26, 2);
    loose[26] = 0;
    count(strict_is(loose, sizeof black + 1, JLSREC_NOT_STRICT, sizeof black + 1, no_fault), "a byte more");
    memcpy(loose, colour, sizeof colour);
    loose[42] |= 0x10;
    count(strict_is(loose, sizeof colour, JLSREC_NOT_STRICT, sizeof colour, (jlsrec_fault){1, 0, 0}), "other padding of green");
    /* EOI alone is no codestream, nor is a comment's end before a byte 0xD9 */
    const uint8_t lone_end[] = {0xFF, 0xD9}, comment[] = {0xFF, 0xD8, 0xFF, 0xFE, 0, 3, 0xFF, 0xD9};
    count(jlsrec_extents(lone_end, 2, extents, 2, &found, &fault) == JLSREC_NO_SOI && found == 0, "EOI alone");
    count(jlsrec_extents(comment, 8, extents, 2, &found, &fault) == JLSREC_BAD_SEGMENT && found == 0, "0xFF of a comment, and 0xD9");
    count(jlsrec_decode_8(two + used, sizeof black, sample, 1, &form, &used, &fault) == JLSREC_OK && sample[0] == 255, "the second");
    two[0] = 0;
    count(jlsrec_decode_8(two, 2 * sizeof black, sample, 1, &form, &used, &fault) == JLSREC_NO_SOI, "a second after a fault");
    count(jlsrec_extent(two, 2 * sizeof black, &extent) == JLSREC_OK && extent == 1, "extent up to a fault");
}

/* ---- texts */

static void says(uint32_t status, jlsrec_fault fault, const char *want) {
    size_t full = strlen(want);
    for (size_t room = 0; room < full + 5; room++) {
        struct guarded out = guarded(room);
        size_t cut = room == 0 ? 0 : full < room ? full : room - 1;
        bool holds = jlsrec_text(status, &fault, (char *)out.bytes, room) == full && !memcmp(out.bytes, want, cut) &&
                     (room == 0 || out.bytes[cut] == 0) && kept_after(&out, room ? cut + 1 : 0);
        count(holds, "text of %u in %zu bytes: %s", status, room, room ? (char *)out.bytes : "");
        free(out.all);
    }
}

static void texts(void) {
    const jlsrec_fault f = {2, 0xDD, 7}, wide = {256, 256, 256};
    says(JLSREC_OK, no_fault, "done");
    says(JLSREC_NO_MEMORY, no_fault, "no memory");
    says(JLSREC_NO_ROOM, no_fault, "no room");
    says(JLSREC_BAD_COMPONENTS, no_fault, "neither 1 nor 3 components");
    says(JLSREC_BAD_SIZE, no_fault, "a side isn't 1 to 65535");
    says(JLSREC_TOO_MANY_SAMPLES, no_fault, "over 2^28 samples");
    says(JLSREC_BAD_MAXVAL, no_fault, "maxval isn't 1 to 65535");
    says(JLSREC_BAD_STRIDE, no_fault, "the stride is less than a row or splits a sample");
    says(JLSREC_TOO_FEW_SAMPLES, no_fault, "fewer samples than the form asks for");
    says(JLSREC_SAMPLE_TOO_LARGE, no_fault, "a sample is over maxval");
    says(JLSREC_BAD_T1, no_fault, "bad presets: T1");
    says(JLSREC_BAD_T2, no_fault, "bad presets: T2");
    says(JLSREC_BAD_T3, no_fault, "bad presets: T3");
    says(JLSREC_BAD_RESET, no_fault, "bad presets: RESET");
    says(JLSREC_NOT_8_BITS, no_fault, "maxval is over 255");
    says(JLSREC_NOT_STRICT, f, "not strict");
    says(JLSREC_TRUNCATED, f, "truncated");
    says(JLSREC_NO_SOI, f, "no SOI");
    says(JLSREC_BAD_SEGMENT, f, "bad segment");
    says(JLSREC_UNSUPPORTED_MARKER, f, "unsupported: marker dd");
    says(JLSREC_UNSUPPORTED_COMPONENTS, f, "unsupported: 7 components");
    says(JLSREC_HEIGHT_0, f, "unsupported: height 0");
    says(JLSREC_SAMPLING, f, "unsupported: sampling");
    says(JLSREC_MAPPING_TABLE, f, "unsupported: mapping table");
    says(JLSREC_NEAR_LOSSLESS, f, "unsupported: near-lossless");
    says(JLSREC_INTERLEAVE, f, "unsupported: interleave");
    says(JLSREC_POINT_TRANSFORM, f, "unsupported: point transform");
    says(JLSREC_LSE_ID, f, "unsupported: LSE 7");
    says(JLSREC_LSE_LATE, f, "unsupported: LSE after a scan");
    says(JLSREC_SCAN_ORDER, f, "unsupported: scan order");
    says(JLSREC_PRESET_MAXVAL, f, "bad presets: maxval");
    says(JLSREC_PRESET_T1, f, "bad presets: T1");
    says(JLSREC_PRESET_T2, f, "bad presets: T2");
    says(JLSREC_PRESET_T3, f, "bad presets: T3");
    says(JLSREC_PRESET_RESET, f, "bad presets: RESET");
    says(JLSREC_TOO_LARGE, f, "too large");
    says(JLSREC_BAD_CODE, f, "bad code in component 2");
    says(JLSREC_LEFTOVER_BITS, f, "leftover bits in component 2");
    for (uint32_t status = 16; status < 20; status++) says(status, no_fault, "unknown status");
    says(42, no_fault, "unknown status");
    says(4294967295u, no_fault, "unknown status");
    says(JLSREC_BAD_CODE, wide, "unknown status");
}

/* ---- memory that is refused */

#ifdef REFUSE
static size_t requests, refused_request, asked_for;

void *__real_malloc(size_t size);
void *__real_realloc(void *block, size_t size);
void *__wrap_malloc(size_t size) {
    asked_for += size;
    return ++requests == refused_request ? NULL : __real_malloc(size);
}
void *__wrap_realloc(void *block, size_t size) {
    asked_for += size;
    return ++requests == refused_request ? NULL : __real_realloc(block, size);
}

static void memory(const char *name) {
    struct bytes images = read_file(name);
    size_t at = 0;
    struct picture p;
    if (!next_picture(&images, &at, &p)) exit(3);
    bool eight = p.form.maxval <= 255;
    size_t room = jlsrec_bound(p.form.components, p.form.width, p.form.height, p.form.maxval), written, used, extent;
    uint8_t *coded = allocated(room);
    const void *samples = eight ? (void *)p.small : (void *)p.samples;
    if (encode(eight, &p.form, samples, p.count, 0, coded, room, &written)) exit(3);
    size_t tries = 0;
    /* One that is refused may be asked for otherwise: encoding is through where none was refused. */
    requests = 1;
    for (uint32_t status; requests >= tries && tries < 1000;) {
        struct guarded out = guarded(room);
        size_t said = 7;
        requests = 0;
        refused_request = ++tries;
        status = encode(eight, &p.form, samples, p.count, 0, out.bytes, room, &said);
        refused_request = 0;
        if (status == JLSREC_OK) count(said == written && !memcmp(out.bytes, coded, written), "%s: encoded", name);
        else count(status == JLSREC_NO_MEMORY && said == 0 && kept_after(&out, 0), "%s: request %zu of encoding", name, tries);
        free(out.all);
    }
    count(tries > 2, "%s: %zu requests of encoding", name, tries);
    tries = 0;
    for (uint32_t status = JLSREC_NO_MEMORY; status != JLSREC_OK && tries < 1000;) {
        size_t size = eight ? 1 : 2;
        struct guarded out = guarded(p.count * size);
        jlsrec_form form;
        jlsrec_fault fault;
        requests = 0;
        refused_request = ++tries;
        status = decode(eight, coded, written, out.bytes, p.count, &form, &used, &fault);
        refused_request = 0;
        if (status == JLSREC_OK) count(used == written && !memcmp(out.bytes, samples, p.count * size), "%s: decoded", name);
        else count(status == JLSREC_NO_MEMORY && used == 0 && same_form(&form, &no_form) && !memcmp(&fault, &no_fault, sizeof fault) && kept_after(&out, 0),
                   "%s: request %zu of decoding", name, tries);
        free(out.all);
    }
    count(tries > 2, "%s: %zu requests of decoding", name, tries);
    for (size_t more = 0; more < 2; more++) {
        size_t size = eight ? 1 : 2, stride = (p.form.width + more) * size;
        size_t many = p.count + more * ((size_t)p.form.height * p.form.components - 1);
        struct guarded from = guarded(many * size);
        put_planes(eight, &p, stride, from.bytes);
        tries = 0;
        requests = 1;
        for (uint32_t status; requests >= tries && tries < 1000;) {
            struct guarded out = guarded(room);
            size_t said = 7;
            requests = 0;
            refused_request = ++tries;
            status = encode_planes(eight, &p.form, from.bytes, many, stride, out.bytes, room, &said);
            refused_request = 0;
            if (status == JLSREC_OK) count(said == written && !memcmp(out.bytes, coded, written), "%s: planes encoded", name);
            else count(status == JLSREC_NO_MEMORY && said == 0 && kept_after(&out, 0), "%s: request %zu of encoding planes", name, tries);
            free(out.all);
        }
        count(tries > 2 + more, "%s: %zu requests of encoding planes", name, tries);
        tries = 0;
        for (uint32_t status = JLSREC_NO_MEMORY; status != JLSREC_OK && tries < 1000;) {
            struct guarded out = guarded(many * size);
            jlsrec_form form;
            jlsrec_fault fault;
            requests = 0;
            refused_request = ++tries;
            status = decode_planes(eight, coded, written, out.bytes, many, stride, &form, &used, &fault);
            refused_request = 0;
            if (status == JLSREC_OK) count(used == written && !memcmp(out.bytes, from.bytes, many * size), "%s: planes decoded", name);
            else count(status == JLSREC_NO_MEMORY && used == 0 && same_form(&form, &no_form) && !memcmp(&fault, &no_fault, sizeof fault) && kept_after(&out, 0),
                       "%s: request %zu of decoding planes", name, tries);
            free(out.all);
        }
        count(tries > 2 + more, "%s: %zu requests of decoding planes", name, tries);
        free(from.all);
    }
    tries = 0;
    for (uint32_t status = JLSREC_NO_MEMORY; status != JLSREC_OK && tries < 1000;) {
        requests = 0;
        refused_request = ++tries;
        status = jlsrec_extent(coded, written, &extent);
        refused_request = 0;
        count(status == JLSREC_OK ? extent == written : status == JLSREC_NO_MEMORY && extent == 0, "%s: request %zu of an extent", name, tries);
    }
    count(tries > 1, "%s: %zu requests of an extent", name, tries);
    tries = 0;
    jlsrec_fault fault;
    for (uint32_t status = JLSREC_NO_MEMORY; status != JLSREC_OK && tries < 1000;) {
        requests = 0;
        refused_request = ++tries;
        status = jlsrec_strict(coded, written, &used, &fault);
        refused_request = 0;
        count(status == JLSREC_OK ? used == written : status == JLSREC_NO_MEMORY && used == 0, "%s: request %zu of strictness", name, tries);
    }
    count(tries > 2, "%s: %zu requests of strictness", name, tries);
    requests = 0;
    count(jlsrec_extents(coded, written, &extent, 1, &used, &fault) == JLSREC_OK && used == 1 && extent == written && requests == 0,
          "%s: sizes without memory", name);
    /* With a room of the bound, and that over 2^25, no memory is asked for but that of two rows; with less room there is. */
    if (room > (size_t)1 << 25) {
        asked_for = 0;
        uint32_t status = encode(eight, &p.form, samples, p.count, 0, coded, room, &used);
        count(status == JLSREC_OK && used == written && asked_for < (size_t)p.form.width * 16 + 1024, "%s: %zu bytes asked for", name, asked_for);
        asked_for = 0;
        status = encode(eight, &p.form, samples, p.count, 0, coded, room - 1, &used);
        count(status == JLSREC_OK && used == written && asked_for >= written && asked_for < room + room / 8, "%s: %zu bytes asked for, less room", name, asked_for);
    }
    refused_request = 1;
    requests = 0;
    jlsrec_form bad = p.form;
    bad.reset = 1;
    count(encode(eight, &bad, samples, p.count, 0, coded, room, &used) == JLSREC_BAD_RESET && requests == 0, "%s: memory before the form", name);
    count(jlsrec_decode_8(black, 20, coded, 1, &bad, &used, &(jlsrec_fault){0}) == JLSREC_TRUNCATED && requests == 0, "memory before the opening");
    refused_request = 0;
    release(&p);
    free(coded);
    free(images.bytes);
}
#endif

/* ---- threads */

struct job {
    const char *name;
    unsigned number, wrong;
};

static void *work(void *argument) {
    struct job *job = argument;
    struct bytes images = read_file(job->name);
    for (unsigned round = 0; round < 20; round++) {
        size_t at = 0;
        struct picture p;
        while (next_picture(&images, &at, &p)) {
            jlsrec_form form;
            jlsrec_fault fault;
            size_t written, used, extent, room = jlsrec_bound(p.form.components, p.form.width, p.form.height, p.form.maxval);
            p.samples[0] = (uint16_t)((job->number + round) % (p.form.maxval + 1));
            uint8_t *bytes = allocated(room);
            uint16_t *back = allocated(2 * p.count);
            char text[40];
            jlsrec_form wanted = in_force(&p.form);
            bool holds = !jlsrec_encode_16(&p.form, p.samples, p.count, 0, bytes, room, &written) &&
                         !jlsrec_extent(bytes, written, &extent) && extent == written &&
                         !jlsrec_decode_16(bytes, written, back, p.count, &form, &used, &fault) && used == written &&
                         !memcmp(back, p.samples, 2 * p.count) && same_form(&form, &wanted) &&
                         jlsrec_text(JLSREC_BAD_CODE, &(jlsrec_fault){job->number, 0, 0}, text, sizeof text) == 23 &&
                         text[22] == '0' + (int)job->number;
            if (!holds) job->wrong++;
            free(bytes);
            free(back);
            release(&p);
        }
    }
    free(images.bytes);
    return NULL;
}

/* What all threads read at once, and where each writes a part of its own, beside those of the others. */
struct common {
    struct picture picture;
    struct bytes coded;
    uint8_t *codes;
    uint16_t *words;
    uint8_t *small;
};

struct part {
    const struct common *common;
    size_t number;
    bool holds;
};

static void *work_beside(void *argument) {
    struct part *part = argument;
    const struct common *c = part->common;
    size_t first = part->number * c->picture.count, size = c->coded.count, written, used;
    jlsrec_form form, wanted = in_force(&c->picture.form);
    jlsrec_fault fault;
    part->holds = true;
    for (unsigned round = 0; round < 20 && part->holds; round++) {
        part->holds = !jlsrec_encode_16(&c->picture.form, c->picture.samples, c->picture.count, 0, c->codes + part->number * size, size, &written) &&
                      written == size &&
                      !jlsrec_decode_16(c->coded.bytes, size, c->words + first, c->picture.count, &form, &used, &fault) &&
                      used == size && same_form(&form, &wanted);
        if (part->holds && c->picture.form.maxval <= 255)
            part->holds = !jlsrec_decode_8(c->coded.bytes, size, c->small + first, c->picture.count, &form, &used, &fault) && used == size;
    }
    return NULL;
}

static void threads_beside(const char *name) {
    pthread_t made[8];
    struct part parts[8];
    struct bytes images = read_file(name);
    size_t at = 0;
    struct common c;
    if (!next_picture(&images, &at, &c.picture)) exit(3);
    size_t count_of = c.picture.count, room = jlsrec_bound(c.picture.form.components, c.picture.form.width, c.picture.form.height, c.picture.form.maxval);
    c.coded.bytes = allocated(room);
    if (jlsrec_encode_16(&c.picture.form, c.picture.samples, count_of, 0, c.coded.bytes, room, &c.coded.count)) exit(3);
    c.codes = allocated(8 * c.coded.count);
    c.words = allocated(8 * 2 * count_of);
    c.small = allocated(8 * count_of);
    for (size_t i = 0; i < 8; i++) {
        parts[i] = (struct part){&c, i, false};
        if (pthread_create(&made[i], NULL, work_beside, &parts[i])) exit(3);
    }
    for (size_t i = 0; i < 8; i++) {
        pthread_join(made[i], NULL);
    }
    for (size_t i = 0; i < 8; i++) {
        count(parts[i].holds && !memcmp(c.codes + i * c.coded.count, c.coded.bytes, c.coded.count) &&
                  !memcmp(c.words + i * count_of, c.picture.samples, 2 * count_of) &&
                  (c.picture.form.maxval > 255 || !memcmp(c.small + i * count_of, c.picture.small, count_of)),
              "%s: thread %zu beside the others", name, i);
    }
    free(c.codes);
    free(c.words);
    free(c.small);
    free(c.coded.bytes);
    release(&c.picture);
    free(images.bytes);
}

static void threads(const char *name) {
    pthread_t made[8];
    struct job jobs[8];
    for (unsigned i = 0; i < 8; i++) {
        jobs[i] = (struct job){name, i, 0};
        if (pthread_create(&made[i], NULL, work, &jobs[i])) exit(3);
    }
    for (unsigned i = 0; i < 8; i++) {
        pthread_join(made[i], NULL);
        count(jobs[i].wrong == 0, "%s: thread %u, %u pictures", name, i, jobs[i].wrong);
    }
}

/* ---- playing */

struct text {
    uint8_t *bytes;
    size_t count, room;
};

static void append(struct text *t, const void *bytes, size_t size) {
    if (t->count + size > t->room) {
        t->room = 2 * (t->count + size) + 4096;
        t->bytes = realloc(t->bytes, t->room);
        if (!t->bytes) exit(3);
    }
    memcpy(t->bytes + t->count, bytes, size);
    t->count += size;
}

/* What `jlsrec play` writes of these bytes, and what it says. */
static int play(const uint8_t *bytes, size_t size, const char *name, struct text *out, char *said, size_t room) {
    uint16_t *samples = allocated(2);
    size_t samples_room = 1;
    said[0] = 0;
    for (unsigned long number = 0; size > 0; number++) {
        size_t extent, used;
        jlsrec_form form;
        jlsrec_fault fault = {0, 0, 0};
        uint32_t status = jlsrec_extent(bytes, size, &extent);
        if (!status) status = jlsrec_decode_16(bytes, extent, samples, samples_room, &form, &used, &fault);
        if (status == JLSREC_NO_ROOM) {
            samples_room = (size_t)form.width * form.height * form.components;
            free(samples);
            samples = allocated(2 * samples_room);
            status = jlsrec_decode_16(bytes, extent, samples, samples_room, &form, &used, &fault);
        }
        if (status) {
            char text[80];
            jlsrec_text(status, &fault, text, sizeof text);
            snprintf(said, room, "jlsrec: %s: frame %lu: %s\n", name, number, text);
            free(samples);
            return 1;
        }
        char header[64];
        int length = snprintf(header, sizeof header, "P%d\n%u %u\n%u\n", form.components == 1 ? 5 : 6, form.width, form.height, form.maxval);
        append(out, header, length);
        size_t all = (size_t)form.width * form.height * form.components;
        for (size_t i = 0; i < all; i++) {
            uint8_t both[] = {samples[i] >> 8, samples[i] & 255};
            append(out, form.maxval > 255 ? both : both + 1, form.maxval > 255 ? 2 : 1);
        }
        bytes += extent;
        size -= extent;
    }
    free(samples);
    return 0;
}

/* ---- changed codestreams */

static uint64_t random_state;

static uint32_t next_random(uint32_t below) {
    random_state = random_state * 6364136223846793005u + 1442695040888963407u;
    return (uint32_t)((random_state >> 33) % below);
}

static struct bytes changed(const struct bytes *whole) {
    struct bytes c = {allocated(whole->count + 8), whole->count};
    memcpy(c.bytes, whole->bytes, whole->count);
    for (uint32_t changes = 1 + next_random(3); changes > 0; changes--) {
        /* half of them near the front, where the headers are */
        size_t near = next_random(2) && c.count > 60 ? 60 : c.count;
        if (near == 0) break;
        size_t place = next_random((uint32_t)near);
        switch (next_random(5)) {
        case 0: c.bytes[place] ^= 1 << next_random(8); break;
        case 1: c.bytes[place] = (uint8_t)next_random(256); break;
        case 2: c.bytes[place] = 0xFF; break;
        case 3: memmove(c.bytes + place, c.bytes + place + 1, c.count - place - 1); c.count--; break;
        case 4:
            if (next_random(4) == 0) c.count = place;
            else if (c.count < whole->count + 8) {
                memmove(c.bytes + place + 1, c.bytes + place, c.count - place);
                c.bytes[place] = (uint8_t)next_random(256);
                c.count++;
            }
            break;
        }
    }
    return c;
}

/* Runs a command on a file, and takes what it writes and says. */
static int run(const char *program, const char *file, struct text *out, struct text *said) {
    int pipes[2][2];
    if (pipe(pipes[0]) || pipe(pipes[1])) exit(3);
    pid_t child = vfork();
    if (child == 0) {
        dup2(pipes[0][1], 1);
        dup2(pipes[1][1], 2);
        for (int i = 0; i < 2; i++) close(pipes[i][0]), close(pipes[i][1]);
        execl(program, program, "play", file, (char *)NULL);
        _exit(127);
    }
    close(pipes[0][1]);
    close(pipes[1][1]);
    uint8_t buffer[65536];
    ssize_t got;
    /* what is said is one short line, which a pipe holds */
    while ((got = read(pipes[0][0], buffer, sizeof buffer)) > 0) append(out, buffer, got);
    while ((got = read(pipes[1][0], buffer, sizeof buffer)) > 0) append(said, buffer, got);
    close(pipes[0][0]);
    close(pipes[1][0]);
    int status;
    waitpid(child, &status, 0);
    return WIFEXITED(status) ? WEXITSTATUS(status) : 128;
}

static void mutate(const char *program, unsigned long seed, unsigned long tries, char **names, int files) {
    struct bytes *wholes = allocated(sizeof *wholes * files);
    unsigned long good = 0;
    for (int i = 0; i < files; i++) wholes[i] = read_file(names[i]);
    random_state = seed;
    for (unsigned long try = 0; try < tries; try++) {
        struct bytes c = changed(&wholes[try % files]);
        struct text ours = {0}, theirs = {0}, their_words = {0};
        char our_words[256];
        write_file("changed.jls", c.bytes, c.count);
        int status = play(c.bytes, c.count, "changed.jls", &ours, our_words, sizeof our_words);
        int their_status = run(program, "changed.jls", &theirs, &their_words);
        bool holds = status == their_status && ours.count == theirs.count && (!ours.count || !memcmp(ours.bytes, theirs.bytes, ours.count)) &&
                     their_words.count == strlen(our_words) && !memcmp(their_words.bytes ? their_words.bytes : (uint8_t *)"", our_words, their_words.count);
        if (!holds) {
            char kept[64];
            snprintf(kept, sizeof kept, "wrong%lu.jls", try);
            write_file(kept, c.bytes, c.count);
        }
        good += status == 0;
        strict_alike(names[try % files], c.bytes, c.count);
        /* the changed codestream between two of the others */
        const struct bytes *other = &wholes[(try + 1) % files];
        struct bytes three = {allocated(2 * other->count + c.count), 2 * other->count + c.count};
        memcpy(three.bytes, other->bytes, other->count);
        memcpy(three.bytes + other->count, c.bytes, c.count);
        memcpy(three.bytes + other->count + c.count, other->bytes, other->count);
        sized(names[try % files], three.bytes, three.count, next_random(8));
        free(three.bytes);
        count(holds, "%s, change %lu of seed %lu: %d %s and %d %.*s", names[try % files], try, seed, status, our_words, their_status,
              (int)their_words.count, (char *)their_words.bytes);
        free(ours.bytes);
        free(theirs.bytes);
        free(their_words.bytes);
        free(c.bytes);
    }
    printf("%lu of %lu changed codestreams are played\n", good, tries);
    for (int i = 0; i < files; i++) free(wholes[i].bytes);
    free(wholes);
}

int main(int argc, char **argv) {
    const char *word = argc > 1 ? argv[1] : "";
    if (!strcmp(word, "film") && (argc == 4 || argc == 8)) film(argv[2], argv[3], argv + 4);
    else if (!strcmp(word, "statuses") && argc == 2) statuses();
    else if (!strcmp(word, "faults") && argc == 3) faults(argv[2]);
    else if (!strcmp(word, "texts") && argc == 2) texts();
#ifdef REFUSE
    else if (!strcmp(word, "memory") && argc == 3) memory(argv[2]);
#endif
    else if (!strcmp(word, "threads") && argc == 3) threads(argv[2]), threads_beside(argv[2]);
    else if (!strcmp(word, "mutate") && argc > 5) mutate(argv[2], strtoul(argv[3], NULL, 10), strtoul(argv[4], NULL, 10), argv + 5, argc - 5);
    else if (!strcmp(word, "play") && argc == 3) {
        struct bytes bytes = read_file(argv[2]);
        struct text out = {0};
        char said[5000];
        int status = play(bytes.bytes, bytes.count, argv[2], &out, said, sizeof said);
        fwrite(out.bytes, 1, out.count, stdout);
        fputs(said, stderr);
        return status;
    } else {
        fprintf(stderr, "check: no such test\n");
        return 2;
    }
    printf("%u passed, %u failed\n", passed, failed);
    return failed != 0;
}
