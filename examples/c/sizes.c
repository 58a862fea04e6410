/* Lists the codestreams of a recording: where each begins, how many bytes it has, and whether it is strict. In the
 * checkout, after library/build:
 *
 *     export PKG_CONFIG_PATH=$PWD/out/library LD_LIBRARY_PATH=$PWD/out/library
 *     cc -o sizes examples/c/sizes.c $(pkg-config --cflags --libs jlsrec) && ./sizes FILE.jls */
#include <jlsrec.h>

#include <stdio.h>
#include <stdlib.h>

#define MOST 256 /* codestreams for each call */

/* Reads a file into memory, which is never freed. */
static uint8_t *read_file(const char *name, size_t *count) {
    FILE *file = fopen(name, "rb");
    if (!file || fseek(file, 0, SEEK_END)) return NULL;
    long size = ftell(file);
    uint8_t *bytes = size < 0 ? NULL : malloc((size_t)size + 1);
    rewind(file);
    *count = bytes ? fread(bytes, 1, (size_t)size, file) : 0;
    fclose(file);
    return bytes;
}

int main(int argc, char **argv) {
    size_t count, sizes[MOST], found, used;
    jlsrec_fault fault;
    uint8_t *bytes = argc == 2 ? read_file(argv[1], &count) : NULL;
    if (!bytes) {
        fprintf(stderr, "sizes: no file\n");
        return 1;
    }
    size_t at = 0;
    uint32_t status;
    do {
        status = jlsrec_extents(bytes + at, count - at, sizes, MOST, &found, &fault);
        for (size_t i = 0; i < found; i++) {
            jlsrec_fault details;
            char text[80];
            jlsrec_text(jlsrec_strict(bytes + at, sizes[i], &used, &details), &details, text, sizeof text);
            printf("%zu %zu %s\n", at, sizes[i], text);
            at += sizes[i];
        }
    } while (status == JLSREC_NO_ROOM);
    if (status == JLSREC_OK) return 0;
    char text[80];
    jlsrec_text(status, &fault, text, sizeof text);
    fprintf(stderr, "sizes: after %zu bytes: %s\n", at, text);
    return 1;
}
