/* Encodes a picture of 12 bits and decodes it again. In the checkout, after library/build:
 *
 *     export PKG_CONFIG_PATH=$PWD/out/library LD_LIBRARY_PATH=$PWD/out/library
 *     cc -o roundtrip examples/c/roundtrip.c $(pkg-config --cflags --libs jlsrec) && ./roundtrip */
#include <jlsrec.h>

#include <stdio.h>
#include <stdlib.h>
#include <string.h>

#define WIDTH 96
#define HEIGHT 72

/* Says what a status means, and ends. */
static void fail(uint32_t status, const jlsrec_fault *fault) {
    char text[80];
    jlsrec_text(status, fault, text, sizeof text);
    fprintf(stderr, "roundtrip: %s\n", text);
    exit(1);
}

int main(void) {
    static uint16_t samples[WIDTH * HEIGHT], back[WIDTH * HEIGHT];
    for (int i = 0; i < WIDTH * HEIGHT; i++) samples[i] = (i % WIDTH * 40 + i / WIDTH * 3) & 4095;

    jlsrec_form form = {1, WIDTH, HEIGHT, 4095, 0, 0, 0, 0};
    jlsrec_fault fault = {0, 0, 0};
    size_t room = jlsrec_bound(1, WIDTH, HEIGHT, 4095), written, used;
    uint8_t *bytes = malloc(room);
    if (!bytes) return 1;

    uint32_t status = jlsrec_encode_16(&form, samples, WIDTH * HEIGHT, 0, bytes, room, &written);
    if (status) fail(status, &fault);
    status = jlsrec_decode_16(bytes, written, back, WIDTH * HEIGHT, &form, &used, &fault);
    if (status) fail(status, &fault);

    printf("%zu bytes of samples, %zu of its codestream: %s\n", sizeof samples, written,
           memcmp(samples, back, sizeof samples) ? "another picture" : "the same picture");
    free(bytes);
    return 0;
}
