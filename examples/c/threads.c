/* Codes a colour picture by three threads: each codes a plane as a gray picture, whose scan is a scan of the colour
 * picture's codestream. In the checkout, after library/build:
 *
 *     export PKG_CONFIG_PATH=$PWD/out/library LD_LIBRARY_PATH=$PWD/out/library
 *     cc -pthread -o threads examples/c/threads.c $(pkg-config --cflags --libs jlsrec) && ./threads */
#include <jlsrec.h>

#include <pthread.h>
#include <stdio.h>
#include <stdlib.h>
#include <string.h>

#define WIDTH 640
#define HEIGHT 480
#define MAXVAL 255
#define PLANE ((size_t)WIDTH * HEIGHT)

struct plane {
    pthread_t thread;
    const uint8_t *samples;
    uint8_t *bytes;
    size_t room, written;
    uint32_t status;
};

static void *encode_plane(void *given) {
    struct plane *plane = given;
    jlsrec_form form = {1, WIDTH, HEIGHT, MAXVAL, 0, 0, 0, 0};
    plane->status = jlsrec_encode_8(&form, plane->samples, PLANE, 0, plane->bytes, plane->room, &plane->written);
    return NULL;
}

/* Joins the scans of three gray codestreams to the codestream of a colour picture, and returns its size. A gray one is
 * SOI, a frame header of 13 bytes, perhaps parameters (LSE, 15 bytes), a scan header of 10 bytes, data, EOI. */
static size_t join(const struct plane planes[3], uint8_t *all) {
    const uint8_t *gray = planes[0].bytes;
    static const uint8_t components[] = {3, 1, 0x11, 0, 2, 0x11, 0, 3, 0x11, 0}, eoi[] = {0xFF, 0xD9};
    size_t parameters = gray[16] == 0xF8 ? 15 : 0, scan = 15 + parameters, at = 11;
    memcpy(all, gray, at);
    all[5] = 8 + 3 * 3; /* the size of the frame header, of three components now */
    memcpy(all + at, components, sizeof components);
    at += sizeof components;
    memcpy(all + at, gray + 15, parameters);
    at += parameters;
    for (int i = 0; i < 3; i++) {
        size_t size = planes[i].written - scan - sizeof eoi;
        memcpy(all + at, planes[i].bytes + scan, size);
        all[at + 5] = (uint8_t)(i + 1); /* the component of this scan */
        at += size;
    }
    memcpy(all + at, eoi, sizeof eoi);
    return at + sizeof eoi;
}

int main(void) {
    static uint8_t samples[3 * PLANE];
    for (size_t i = 0; i < 3 * PLANE; i++) samples[i] = (uint8_t)((i % WIDTH * 3 + i / WIDTH * 7) ^ (i / PLANE * 85));

    struct plane planes[3];
    size_t room = jlsrec_bound(3, WIDTH, HEIGHT, MAXVAL), written;
    uint8_t *all = malloc(room), *alone = malloc(room);
    if (!all || !alone) return 1;
    for (int i = 0; i < 3; i++) {
        planes[i].samples = samples + (size_t)i * PLANE;
        planes[i].room = jlsrec_bound(1, WIDTH, HEIGHT, MAXVAL);
        planes[i].bytes = malloc(planes[i].room);
        if (!planes[i].bytes || pthread_create(&planes[i].thread, NULL, encode_plane, &planes[i])) return 1;
    }
    for (int i = 0; i < 3; i++) {
        if (pthread_join(planes[i].thread, NULL) || planes[i].status) return 1;
    }
    size_t size = join(planes, all);

    jlsrec_form form = {3, WIDTH, HEIGHT, MAXVAL, 0, 0, 0, 0};
    if (jlsrec_encode_planes_8(&form, samples, 3 * PLANE, 0, alone, room, &written)) return 1;
    printf("%zu bytes of samples, by three threads %s codestream as by one\n", sizeof samples,
           size == written && !memcmp(all, alone, size) ? "the same" : "another");
    return 0;
}
