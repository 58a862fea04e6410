/* Times the calls of libjlsrec, into memory that is there.
 *
 *     library encode_8|encode_16|decode_8|decode_16 TIMES FILM
 *
 * FILM is one binary Netpbm image; for decode it is coded first. It is coded or decoded TIMES times. Prints to standard
 * output the film's name and how many bytes its codestream has, and to standard error how many nanoseconds a sample took,
 * as `ls_bench frames` does. Status 2: samples of more than 8 bits and a call for 8; nothing is timed then. */
#include <jlsrec.h>

#include <stdio.h>
#include <stdlib.h>
#include <string.h>
#include <time.h>

static void fail(const char *why) {
    fprintf(stderr, "library: %s\n", why);
    exit(1);
}

static void *allocated(size_t size) {
    void *block = malloc(size);
    if (!block) fail("no memory");
    memset(block, 1, size);
    return block;
}

static void check(uint32_t status) {
    char text[80];
    jlsrec_fault none = {0, 0, 0};
    if (!status) return;
    jlsrec_text(status, &none, text, sizeof text);
    fail(text);
}

int main(int count, char **words) {
    if (count != 4) fail("encode_8|encode_16|decode_8|decode_16 TIMES FILM");
    const char *what = words[1], *name = words[3];
    int times = atoi(words[2]), encode = !strncmp(what, "encode", 6), eight = !strcmp(what + 7, "8");
    FILE *film = fopen(name, "rb");
    unsigned kind, width, height, maxval;
    if (!film || fscanf(film, "P%u %u %u %u", &kind, &width, &height, &maxval) != 4) fail("no film");
    fgetc(film);
    if (eight && maxval > 255) return 2;

    jlsrec_form form = {kind == 6 ? 3 : 1, width, height, maxval, 0, 0, 0, 0}, found;
    jlsrec_fault fault;
    size_t samples = (size_t)width * height * form.components, size = maxval > 255 ? 2 : 1, written, used;
    size_t room = jlsrec_bound(form.components, width, height, maxval);
    uint8_t *raw = allocated(2 * samples), *bytes = allocated(room);
    uint16_t *words16 = allocated(2 * samples);
    if (fread(raw, size, samples, film) != samples) fail("truncated");
    for (size_t i = 0; i < samples; i++) words16[i] = size == 1 ? raw[i] : (uint16_t)(raw[2 * i] << 8 | raw[2 * i + 1]);
    check(jlsrec_encode_16(&form, words16, samples, 0, bytes, room, &written));

    struct timespec begin, end;
    clock_gettime(CLOCK_MONOTONIC, &begin);
    for (int i = 0; i < times; i++) {
        if (encode && eight) check(jlsrec_encode_8(&form, raw, samples, 0, bytes, room, &written));
        else if (encode) check(jlsrec_encode_16(&form, words16, samples, 0, bytes, room, &written));
        else if (eight) check(jlsrec_decode_8(bytes, written, raw, samples, &found, &used, &fault));
        else check(jlsrec_decode_16(bytes, written, words16, samples, &found, &used, &fault));
    }
    clock_gettime(CLOCK_MONOTONIC, &end);
    double took = (end.tv_sec - begin.tv_sec) * 1e9 + (end.tv_nsec - begin.tv_nsec);
    printf("%s %zu\n", name, written);
    fprintf(stderr, "%s: %.3f ns a sample\n", name, took / times / samples);
    return 0;
}
