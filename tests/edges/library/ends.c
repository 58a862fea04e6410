/* The calls of libjlsrec where a number or a count is at the end of its type or of what a call promises. Each of these
 * counts its cases, and says at its end how many passed:
 *
 *     ends forms      each number of a form, and the stride, in encoding; jlsrec_bound
 *     ends counts     each count of each call at 0, one too few, exact and one more; each pointer at a guard
 *     ends texts      each number of jlsrec_text
 *     ends large      counts over 2^32 that are true
 *     ends longest    codestreams of 4,294,967,295 bytes and more
 *     ends extent     the same for jlsrec_extent, which takes minutes and 5 GB of memory
 *
 * What each call has to answer is written here by what jlsrec.h says of it. Of T.87 come the codestream of Annex H.3,
 * and those of black pictures, which are runs alone (A.7.1).
 *
 * Memory that is given to a call begins or ends at a page that can't be accessed, and what a call only reads can't be
 * written: a call that touches a byte too many is caught there, and its case fails. The header asks for counts that are
 * true, so counts that no memory has are given only where an earlier fault is the answer. */
#define _GNU_SOURCE
#include <jlsrec.h>

#include <setjmp.h>
#include <signal.h>
#include <stdarg.h>
#include <stdbool.h>
#include <stdio.h>
#include <stdlib.h>
#include <string.h>
#include <sys/mman.h>
#include <unistd.h>

static unsigned passed, failed;

static void count(bool holds, const char *format, ...) {
    if (holds) {
        passed++;
        return;
    }
    failed++;
    va_list words;
    va_start(words, format);
    printf("FAILED ");
    vprintf(format, words);
    printf("\n");
    va_end(words);
}

/* ---- calls that may be caught */

static sigjmp_buf before_call;
static volatile sig_atomic_t calling;
static bool caught;
static uint32_t status;
static size_t length;

static void on_signal(int number) {
    if (!calling) {
        fprintf(stderr, "ends: signal %d outside of any call\n", number);
        _exit(9);
    }
    calling = 0;
    siglongjmp(before_call, 1);
}

static void catch_signals(void) {
    const int numbers[] = {SIGSEGV, SIGBUS, SIGILL, SIGFPE, SIGTRAP, SIGABRT};
    for (size_t i = 0; i < sizeof numbers / sizeof *numbers; i++) {
        struct sigaction action;
        memset(&action, 0, sizeof action);
        action.sa_handler = on_signal;
        action.sa_flags = SA_NODEFER;
        if (sigaction(numbers[i], &action, NULL)) exit(3);
    }
}

/* Assigns what a call answers, unless a signal came. */
#define CALL(answer, call)                          \
    do {                                            \
        caught = sigsetjmp(before_call, 0) != 0;    \
        if (!caught) {                              \
            calling = 1;                            \
            (answer) = (call);                      \
            calling = 0;                            \
        }                                           \
    } while (0)

/* ---- memory between two guards */

#define PAGE ((size_t)4096)

enum side { AT_END, AT_FRONT };

struct area {
    uint8_t *all;      /* what was mapped */
    size_t mapped;
    uint8_t *inner;    /* what can be accessed */
    size_t accessible;
    uint8_t *bytes;    /* what a call is given */
    size_t size;
};

static uint8_t pattern(size_t place) { return (uint8_t)(place * 31 + 7); }

static size_t whole_pages(size_t size) { return (size + PAGE - 1) / PAGE * PAGE; }

static uint8_t *mapped(size_t size, int access) {
    uint8_t *all = mmap(NULL, size, access, MAP_PRIVATE | MAP_ANONYMOUS | MAP_NORESERVE, -1, 0);
    if (all == MAP_FAILED) {
        fprintf(stderr, "ends: %zu bytes can't be mapped\n", size);
        exit(3);
    }
    return all;
}

static void access_to(uint8_t *from, size_t size, int access) {
    if (size && mprotect(from, size, access)) {
        perror("mprotect");
        exit(3);
    }
}

/* Memory of this size, with a pattern in it and around it. */
static struct area area(size_t size, enum side side) {
    struct area a;
    a.accessible = whole_pages(size);
    a.mapped = a.accessible + 2 * PAGE;
    a.all = mapped(a.mapped, PROT_NONE);
    a.inner = a.all + PAGE;
    a.size = size;
    a.bytes = side == AT_END ? a.inner + a.accessible - size : a.inner;
    access_to(a.inner, a.accessible, PROT_READ | PROT_WRITE);
    for (size_t i = 0; i < a.accessible; i++) a.inner[i] = pattern(i);
    return a;
}

/* A copy that can't be written. */
static struct area copy_of(const void *bytes, size_t size, enum side side) {
    struct area a = area(size, side);
    if (size) memcpy(a.bytes, bytes, size);
    access_to(a.inner, a.accessible, PROT_READ);
    return a;
}

/* A copy that can't be written, after which memory of `size` bytes in all goes on that can't be accessed. */
static struct area copy_before_nothing(const void *bytes, size_t near, size_t size) {
    struct area a;
    a.accessible = whole_pages(near);
    a.mapped = PAGE + a.accessible + whole_pages(size - near) + PAGE;
    a.all = mapped(a.mapped, PROT_NONE);
    a.inner = a.all + PAGE;
    a.size = size;
    a.bytes = a.inner + a.accessible - near;
    access_to(a.inner, a.accessible, PROT_READ | PROT_WRITE);
    memcpy(a.bytes, bytes, near);
    access_to(a.inner, a.accessible, PROT_READ);
    return a;
}

/* A copy that can't be written, after which zeros go on to `size` bytes in all. */
static struct area copy_before_zeros(const void *bytes, size_t near, size_t size) {
    struct area a = copy_before_nothing(bytes, near, size);
    access_to(a.inner, a.mapped - 2 * PAGE, PROT_READ);
    return a;
}

static void release(struct area *a) { munmap(a->all, a->mapped); }

/* Whether nothing was written but the first bytes. */
static bool kept_after(const struct area *a, size_t first) {
    for (size_t i = 0; i < a->accessible; i++) {
        const uint8_t *byte = a->inner + i;
        if ((byte < a->bytes || byte >= a->bytes + first) && *byte != pattern(i)) return false;
    }
    return true;
}

/* A page that can't be accessed: what a call is given that it has to leave alone. */
static uint8_t *nothing(void) {
    static uint8_t *page;
    if (!page) page = mapped(PAGE, PROT_NONE);
    return page;
}

/* ---- codestreams of the standard */

/* Annex H.3. */
static const uint8_t h3_samples[16] = {0, 0, 90, 74, 68, 50, 43, 205, 64, 145, 145, 145, 100, 145, 145, 145};
static const uint8_t h3[] = {0xFF, 0xD8, 0xFF, 0xF7, 0x00, 0x0B, 0x08, 0x00, 0x04, 0x00, 0x04, 0x01, 0x01, 0x11, 0x00,
                             0xFF, 0xDA, 0x00, 0x08, 0x01, 0x01, 0x00, 0x00, 0x00, 0x00,
                             0xC0, 0x00, 0x00, 0x6C, 0x80, 0x20, 0x8E, 0x01, 0xC0, 0x00, 0x00, 0x57, 0x40, 0x00, 0x00, 0x6E,
                             0xE6, 0x00, 0x00, 0x01, 0xBC, 0x18, 0x00, 0x00, 0x05, 0xD8, 0x00, 0x00, 0x91, 0x60, 0xFF, 0xD9};
#define H3_HEADERS 25

static const jlsrec_form h3_form = {1, 4, 4, 255, 0, 0, 0, 0};
static const jlsrec_form h3_form_in_force = {1, 4, 4, 255, 3, 7, 21, 64};

static const jlsrec_form no_form;
static const jlsrec_fault no_fault;

/* J of A.2.1. */
static const uint8_t run_orders[32] = {0, 0, 0, 0, 1, 1, 1, 1, 2, 2, 2, 2, 3, 3, 3, 3, 4, 4, 5, 5, 6, 6, 7, 7, 8, 9, 10, 11, 12, 13, 14, 15};

/* The codestream of a black picture of maxval 2^precision - 1, with the default parameters: each row is one run to its
 * end, all bits are 1 (A.7.1.2), and a bit 0 is stuffed after each byte 0xFF (A.1). */
static size_t black_codestream(uint8_t *out, uint32_t components, uint32_t width, uint32_t height, uint32_t precision) {
    uint8_t *at = out;
    const uint8_t frame[] = {0xFF, 0xD8, 0xFF, 0xF7, 0, (uint8_t)(8 + 3 * components), (uint8_t)precision, (uint8_t)(height >> 8),
                             (uint8_t)height, (uint8_t)(width >> 8), (uint8_t)width, (uint8_t)components};
    memcpy(at, frame, sizeof frame);
    at += sizeof frame;
    for (uint32_t id = 1; id <= components; id++) {
        *at++ = (uint8_t)id;
        *at++ = 0x11;
        *at++ = 0;
    }
    uint64_t ones = 0;
    uint32_t run_index = 0;
    for (uint32_t row = 0; row < height; row++) {
        uint32_t left = width;
        for (; left >= 1u << run_orders[run_index]; ones++) {
            left -= 1u << run_orders[run_index];
            if (run_index < 31) run_index++;
        }
        if (left > 0) ones++;
    }
    for (uint32_t id = 1; id <= components; id++) {
        const uint8_t scan[] = {0xFF, 0xDA, 0, 8, 1, (uint8_t)id, 0, 0, 0, 0};
        memcpy(at, scan, sizeof scan);
        at += sizeof scan;
        uint64_t left = ones;
        for (bool stuffed = false; left > 0 || stuffed;) {
            uint32_t bits = stuffed ? 7 : 8, taken = left < bits ? (uint32_t)left : bits;
            *at = (uint8_t)(((1u << taken) - 1) << (bits - taken));
            stuffed = *at++ == 0xFF;
            left -= taken;
        }
    }
    *at++ = 0xFF;
    *at++ = 0xD9;
    return (size_t)(at - out);
}

/* ---- encoding */

struct encoding {
    bool eight;
    jlsrec_form form;
    size_t count, stride, room;
};

static size_t sample_size(bool eight) { return eight ? 1 : 2; }

static __attribute__((noinline)) void encode(const struct encoding *e, const void *form, const void *samples, void *bytes, void *written) {
    if (e->eight) CALL(status, jlsrec_encode_8(form, samples, e->count, e->stride, bytes, e->room, written));
    else CALL(status, jlsrec_encode_16(form, samples, e->count, e->stride, bytes, e->room, written));
}

static size_t number_at(const struct area *a) {
    size_t number;
    memcpy(&number, a->bytes, sizeof number);
    return number;
}

/* The samples of Annex H.3, each of 1 byte or of 2. */
static void h3_as(bool eight, void *samples, size_t first, size_t many) {
    for (size_t i = 0; i < many; i++) {
        uint16_t word = h3_samples[first + i];
        if (eight) ((uint8_t *)samples)[i] = h3_samples[first + i];
        else memcpy((uint8_t *)samples + 2 * i, &word, 2);
    }
}

/* A refusal, of memory that isn't accessed: nothing is written but *written, which is 0. */
static void refuses_unseen(const char *name, const struct encoding *e, uint32_t want) {
    struct area form = copy_of(&e->form, sizeof e->form, AT_END), written = area(sizeof(size_t), AT_END);
    encode(e, form.bytes, nothing(), nothing(), written.bytes);
    count(!caught && status == want && number_at(&written) == 0 && kept_after(&written, sizeof(size_t)),
          "%s: of %d bits, count %zu, stride %zu, room %zu: %s %u in place of %u", name, e->eight ? 8 : 16, e->count, e->stride,
          e->room, caught ? "caught;" : "status", status, want);
    release(&form);
    release(&written);
}

/* Encoding of as many samples as `e` has, each of them 0 or those of Annex H.3, into as much room as it has. `coded` is
 * what is to be written if that is known, and `need` how many bytes it has. */
static void encodes(const char *name, const struct encoding *e, bool black, uint32_t want, const uint8_t *coded, size_t need) {
    for (int side = AT_END; side <= AT_FRONT; side++) {
        uint16_t values[64] = {0};
        if (e->count > sizeof values / sizeof *values) exit(3);
        if (!black) h3_as(e->eight, values, 0, e->count < 16 ? e->count : 16);
        struct area form = copy_of(&e->form, sizeof e->form, side);
        struct area samples = copy_of(values, e->count * sample_size(e->eight), side);
        struct area bytes = area(e->room, side), written = area(sizeof(size_t), side);
        encode(e, form.bytes, samples.bytes, bytes.bytes, written.bytes);
        bool holds = !caught && status == want && kept_after(&written, sizeof(size_t));
        size_t said = number_at(&written);
        if (want == JLSREC_OK) {
            holds = holds && said <= e->room && kept_after(&bytes, said);
            holds = holds && (!coded || (said == need && !memcmp(bytes.bytes, coded, need)));
            if (holds && !coded) {
                uint16_t back[64];
                jlsrec_form read;
                jlsrec_fault fault;
                size_t used;
                holds = jlsrec_decode_16(bytes.bytes, said, back, 64, &read, &used, &fault) == JLSREC_OK && used == said &&
                        read.width == e->form.width && read.height == e->form.height && read.maxval == e->form.maxval &&
                        (!e->form.t1 || read.t1 == e->form.t1) && (!e->form.t2 || read.t2 == e->form.t2) &&
                        (!e->form.t3 || read.t3 == e->form.t3) && (!e->form.reset || read.reset == e->form.reset);
                for (size_t i = 0; holds && i < (size_t)read.width * read.height * read.components; i++) holds = back[i] == 0;
            }
        } else {
            holds = holds && said == (want == JLSREC_NO_ROOM ? need : 0) && kept_after(&bytes, 0);
        }
        count(holds, "%s: of %d bits, count %zu, stride %zu, room %zu, side %d: %s %u in place of %u, written %zu", name,
              e->eight ? 8 : 16, e->count, e->stride, e->room, side, caught ? "caught;" : "status", status, want, said);
        release(&form);
        release(&samples);
        release(&bytes);
        release(&written);
    }
}

/* ---- the numbers of a form */

#define END31 2147483647u
#define END32 4294967295u

enum field { COMPONENTS, WIDTH, HEIGHT, MAXVAL, T1, T2, T3, RESET };

static const char *const field_names[] = {"components", "width", "height", "maxval", "T1", "T2", "T3", "RESET"};

/* What is answered of a picture of 4 by 4 samples 0 with one number changed: where maxval is 255 (then T1, T2 and T3
 * are 3, 7 and 21), and, of 16 bits, where it is 4095 (then 18, 67 and 276: C.2.4.1.1). */
static const struct {
    enum field field;
    uint32_t value, of_8, of_16;
} numbers[] = {
    {COMPONENTS, 0, JLSREC_BAD_COMPONENTS, JLSREC_BAD_COMPONENTS},
    {COMPONENTS, 1, JLSREC_OK, JLSREC_OK},
    {COMPONENTS, 2, JLSREC_BAD_COMPONENTS, JLSREC_BAD_COMPONENTS},
    {COMPONENTS, 3, JLSREC_TOO_FEW_SAMPLES, JLSREC_TOO_FEW_SAMPLES},
    {COMPONENTS, 4, JLSREC_BAD_COMPONENTS, JLSREC_BAD_COMPONENTS},
    {COMPONENTS, 257, JLSREC_BAD_COMPONENTS, JLSREC_BAD_COMPONENTS},
    {COMPONENTS, 65537, JLSREC_BAD_COMPONENTS, JLSREC_BAD_COMPONENTS},
    {COMPONENTS, END31, JLSREC_BAD_COMPONENTS, JLSREC_BAD_COMPONENTS},
    {COMPONENTS, END31 + 1, JLSREC_BAD_COMPONENTS, JLSREC_BAD_COMPONENTS},
    {COMPONENTS, END31 + 2, JLSREC_BAD_COMPONENTS, JLSREC_BAD_COMPONENTS},
    {COMPONENTS, END32 - 1, JLSREC_BAD_COMPONENTS, JLSREC_BAD_COMPONENTS},
    {COMPONENTS, END32, JLSREC_BAD_COMPONENTS, JLSREC_BAD_COMPONENTS},

    {WIDTH, 0, JLSREC_BAD_SIZE, JLSREC_BAD_SIZE},
    {WIDTH, 1, JLSREC_OK, JLSREC_OK},
    {WIDTH, 4, JLSREC_OK, JLSREC_OK},
    {WIDTH, 5, JLSREC_TOO_FEW_SAMPLES, JLSREC_TOO_FEW_SAMPLES},
    {WIDTH, 65535, JLSREC_TOO_FEW_SAMPLES, JLSREC_TOO_FEW_SAMPLES},
    {WIDTH, 65536, JLSREC_BAD_SIZE, JLSREC_BAD_SIZE},
    {WIDTH, 65540, JLSREC_BAD_SIZE, JLSREC_BAD_SIZE},
    {WIDTH, END31, JLSREC_BAD_SIZE, JLSREC_BAD_SIZE},
    {WIDTH, END31 + 1, JLSREC_BAD_SIZE, JLSREC_BAD_SIZE},
    {WIDTH, END31 + 5, JLSREC_BAD_SIZE, JLSREC_BAD_SIZE},
    {WIDTH, END32 - 1, JLSREC_BAD_SIZE, JLSREC_BAD_SIZE},
    {WIDTH, END32, JLSREC_BAD_SIZE, JLSREC_BAD_SIZE},

    {HEIGHT, 0, JLSREC_BAD_SIZE, JLSREC_BAD_SIZE},
    {HEIGHT, 1, JLSREC_OK, JLSREC_OK},
    {HEIGHT, 4, JLSREC_OK, JLSREC_OK},
    {HEIGHT, 5, JLSREC_TOO_FEW_SAMPLES, JLSREC_TOO_FEW_SAMPLES},
    {HEIGHT, 65535, JLSREC_TOO_FEW_SAMPLES, JLSREC_TOO_FEW_SAMPLES},
    {HEIGHT, 65536, JLSREC_BAD_SIZE, JLSREC_BAD_SIZE},
    {HEIGHT, 65540, JLSREC_BAD_SIZE, JLSREC_BAD_SIZE},
    {HEIGHT, END31, JLSREC_BAD_SIZE, JLSREC_BAD_SIZE},
    {HEIGHT, END31 + 1, JLSREC_BAD_SIZE, JLSREC_BAD_SIZE},
    {HEIGHT, END31 + 5, JLSREC_BAD_SIZE, JLSREC_BAD_SIZE},
    {HEIGHT, END32 - 1, JLSREC_BAD_SIZE, JLSREC_BAD_SIZE},
    {HEIGHT, END32, JLSREC_BAD_SIZE, JLSREC_BAD_SIZE},

    {MAXVAL, 0, JLSREC_BAD_MAXVAL, JLSREC_BAD_MAXVAL},
    {MAXVAL, 1, JLSREC_OK, JLSREC_OK},
    {MAXVAL, 255, JLSREC_OK, JLSREC_OK},
    {MAXVAL, 256, JLSREC_NOT_8_BITS, JLSREC_OK},
    {MAXVAL, 65535, JLSREC_NOT_8_BITS, JLSREC_OK},
    {MAXVAL, 65536, JLSREC_BAD_MAXVAL, JLSREC_BAD_MAXVAL},
    {MAXVAL, 65791, JLSREC_BAD_MAXVAL, JLSREC_BAD_MAXVAL},
    {MAXVAL, END31, JLSREC_BAD_MAXVAL, JLSREC_BAD_MAXVAL},
    {MAXVAL, END31 + 1, JLSREC_BAD_MAXVAL, JLSREC_BAD_MAXVAL},
    {MAXVAL, END31 + 256, JLSREC_BAD_MAXVAL, JLSREC_BAD_MAXVAL},
    {MAXVAL, END32 - 1, JLSREC_BAD_MAXVAL, JLSREC_BAD_MAXVAL},
    {MAXVAL, END32, JLSREC_BAD_MAXVAL, JLSREC_BAD_MAXVAL},

    {T1, 0, JLSREC_OK, JLSREC_OK},
    {T1, 1, JLSREC_OK, JLSREC_OK},
    {T1, 7, JLSREC_OK, JLSREC_OK},
    {T1, 8, JLSREC_BAD_T2, JLSREC_OK},
    {T1, 67, JLSREC_BAD_T2, JLSREC_OK},
    {T1, 68, JLSREC_BAD_T2, JLSREC_BAD_T2},
    {T1, 255, JLSREC_BAD_T2, JLSREC_BAD_T2},
    {T1, 256, JLSREC_BAD_T1, JLSREC_BAD_T2},
    {T1, 4095, JLSREC_BAD_T1, JLSREC_BAD_T2},
    {T1, 4096, JLSREC_BAD_T1, JLSREC_BAD_T1},
    {T1, 65535, JLSREC_BAD_T1, JLSREC_BAD_T1},
    {T1, 65536, JLSREC_BAD_T1, JLSREC_BAD_T1},
    {T1, 65539, JLSREC_BAD_T1, JLSREC_BAD_T1},
    {T1, END31, JLSREC_BAD_T1, JLSREC_BAD_T1},
    {T1, END31 + 1, JLSREC_BAD_T1, JLSREC_BAD_T1},
    {T1, END31 + 4, JLSREC_BAD_T1, JLSREC_BAD_T1},
    {T1, END32 - 1, JLSREC_BAD_T1, JLSREC_BAD_T1},
    {T1, END32, JLSREC_BAD_T1, JLSREC_BAD_T1},

    {T2, 0, JLSREC_OK, JLSREC_OK},
    {T2, 1, JLSREC_BAD_T2, JLSREC_BAD_T2},
    {T2, 3, JLSREC_OK, JLSREC_BAD_T2},
    {T2, 18, JLSREC_OK, JLSREC_OK},
    {T2, 21, JLSREC_OK, JLSREC_OK},
    {T2, 22, JLSREC_BAD_T3, JLSREC_OK},
    {T2, 255, JLSREC_BAD_T3, JLSREC_OK},
    {T2, 256, JLSREC_BAD_T2, JLSREC_OK},
    {T2, 277, JLSREC_BAD_T2, JLSREC_BAD_T3},
    {T2, 4095, JLSREC_BAD_T2, JLSREC_BAD_T3},
    {T2, 4096, JLSREC_BAD_T2, JLSREC_BAD_T2},
    {T2, 65535, JLSREC_BAD_T2, JLSREC_BAD_T2},
    {T2, 65536, JLSREC_BAD_T2, JLSREC_BAD_T2},
    {T2, 65543, JLSREC_BAD_T2, JLSREC_BAD_T2},
    {T2, END31, JLSREC_BAD_T2, JLSREC_BAD_T2},
    {T2, END31 + 1, JLSREC_BAD_T2, JLSREC_BAD_T2},
    {T2, END31 + 8, JLSREC_BAD_T2, JLSREC_BAD_T2},
    {T2, END32 - 1, JLSREC_BAD_T2, JLSREC_BAD_T2},
    {T2, END32, JLSREC_BAD_T2, JLSREC_BAD_T2},

    {T3, 0, JLSREC_OK, JLSREC_OK},
    {T3, 1, JLSREC_BAD_T3, JLSREC_BAD_T3},
    {T3, 6, JLSREC_BAD_T3, JLSREC_BAD_T3},
    {T3, 7, JLSREC_OK, JLSREC_BAD_T3},
    {T3, 66, JLSREC_OK, JLSREC_BAD_T3},
    {T3, 67, JLSREC_OK, JLSREC_OK},
    {T3, 255, JLSREC_OK, JLSREC_OK},
    {T3, 256, JLSREC_BAD_T3, JLSREC_OK},
    {T3, 4095, JLSREC_BAD_T3, JLSREC_OK},
    {T3, 4096, JLSREC_BAD_T3, JLSREC_BAD_T3},
    {T3, 65535, JLSREC_BAD_T3, JLSREC_BAD_T3},
    {T3, 65536, JLSREC_BAD_T3, JLSREC_BAD_T3},
    {T3, 65557, JLSREC_BAD_T3, JLSREC_BAD_T3},
    {T3, END31, JLSREC_BAD_T3, JLSREC_BAD_T3},
    {T3, END31 + 1, JLSREC_BAD_T3, JLSREC_BAD_T3},
    {T3, END31 + 22, JLSREC_BAD_T3, JLSREC_BAD_T3},
    {T3, END32 - 1, JLSREC_BAD_T3, JLSREC_BAD_T3},
    {T3, END32, JLSREC_BAD_T3, JLSREC_BAD_T3},

    {RESET, 0, JLSREC_OK, JLSREC_OK},
    {RESET, 1, JLSREC_BAD_RESET, JLSREC_BAD_RESET},
    {RESET, 2, JLSREC_BAD_RESET, JLSREC_BAD_RESET},
    {RESET, 3, JLSREC_OK, JLSREC_OK},
    {RESET, 255, JLSREC_OK, JLSREC_OK},
    {RESET, 256, JLSREC_BAD_RESET, JLSREC_OK},
    {RESET, 4095, JLSREC_BAD_RESET, JLSREC_OK},
    {RESET, 4096, JLSREC_BAD_RESET, JLSREC_BAD_RESET},
    {RESET, 65535, JLSREC_BAD_RESET, JLSREC_BAD_RESET},
    {RESET, 65536, JLSREC_BAD_RESET, JLSREC_BAD_RESET},
    {RESET, 65600, JLSREC_BAD_RESET, JLSREC_BAD_RESET},
    {RESET, END31, JLSREC_BAD_RESET, JLSREC_BAD_RESET},
    {RESET, END31 + 1, JLSREC_BAD_RESET, JLSREC_BAD_RESET},
    {RESET, END31 + 65, JLSREC_BAD_RESET, JLSREC_BAD_RESET},
    {RESET, END32 - 1, JLSREC_BAD_RESET, JLSREC_BAD_RESET},
    {RESET, END32, JLSREC_BAD_RESET, JLSREC_BAD_RESET},
};

static const size_t size_ends[] = {0, 1, END31, (size_t)END31 + 1, END32, (size_t)END32 + 1,
                                   SIZE_MAX / 2, SIZE_MAX / 2 + 1, SIZE_MAX - 1, SIZE_MAX};
#define SIZE_ENDS (sizeof size_ends / sizeof *size_ends)

static jlsrec_form with(const jlsrec_form *form, enum field field, uint32_t value) {
    jlsrec_form changed = *form;
    uint32_t *const fields[] = {&changed.components, &changed.width, &changed.height, &changed.maxval,
                                &changed.t1, &changed.t2, &changed.t3, &changed.reset};
    *fields[field] = value;
    return changed;
}

/* Of a form that is refused, and of a stride or a count that is, no memory is looked at: the statuses have an order. */
static void form_numbers(void) {
    for (size_t i = 0; i < sizeof numbers / sizeof *numbers; i++) {
        for (int eight = 0; eight < 2; eight++) {
            uint32_t want = eight ? numbers[i].of_8 : numbers[i].of_16;
            jlsrec_form base = {1, 4, 4, eight ? 255 : 4095, 0, 0, 0, 0};
            struct encoding e = {eight, with(&base, numbers[i].field, numbers[i].value), 16, 0, 600};
            char name[64];
            snprintf(name, sizeof name, "%s %u", field_names[numbers[i].field], numbers[i].value);
            encodes(name, &e, true, want, NULL, 0);
            if (want == JLSREC_OK || want == JLSREC_TOO_FEW_SAMPLES) continue;
            for (size_t j = 0; j < SIZE_ENDS; j++) {
                for (size_t k = 0; k < SIZE_ENDS; k++) {
                    e.count = size_ends[j];
                    e.room = size_ends[k];
                    e.stride = size_ends[(j + k) % SIZE_ENDS];
                    refuses_unseen(name, &e, want);
                }
            }
        }
    }
}

/* All numbers of a form at once at an end: the first in the order of the statuses is answered. */
static void all_numbers(void) {
    const struct {
        uint32_t value, want;
    } rows[] = {
        {0, JLSREC_BAD_COMPONENTS}, {END31, JLSREC_BAD_COMPONENTS}, {END31 + 1, JLSREC_BAD_COMPONENTS}, {END32, JLSREC_BAD_COMPONENTS},
    };
    for (size_t i = 0; i < sizeof rows / sizeof *rows; i++)
        for (int eight = 0; eight < 2; eight++)
            for (size_t j = 0; j < SIZE_ENDS; j++) {
                uint32_t v = rows[i].value;
                struct encoding e = {eight, {v, v, v, v, v, v, v, v}, size_ends[j], size_ends[j], size_ends[j]};
                refuses_unseen("all numbers", &e, rows[i].want);
            }
}

/* Sizes whose product is at 2^28 samples, or is that only once it was cut to 32 bits. */
static void sizes(void) {
    const struct {
        uint32_t components, width, height;
        bool possible;
    } rows[] = {
        {1, 1, 1, true}, {3, 1, 1, true}, {1, 65535, 1, true}, {1, 1, 65535, true}, {3, 65535, 1, true},
        {1, 16384, 16384, true}, {1, 16384, 16385, false}, {1, 16385, 16384, false},
        {1, 65535, 4096, true}, {1, 65535, 4097, false}, {1, 4096, 65535, true}, {1, 4097, 65535, false},
        {3, 65535, 1365, true}, {3, 65535, 1366, false}, {3, 9459, 9459, true}, {3, 9460, 9459, false},
        {1, 65535, 65535, false}, {3, 65535, 65535, false},
        {3, 37838, 37838, false}, /* 2^32 + 175,436 */
        {3, 65521, 65535, false},
    };
    for (size_t i = 0; i < sizeof rows / sizeof *rows; i++) {
        uint32_t c = rows[i].components, w = rows[i].width, h = rows[i].height;
        uint64_t bound = jlsrec_bound(c, w, h, 255), wide = jlsrec_bound(c, w, h, 65535);
        if (rows[i].possible) count(bound > 28 && bound < 1ull << 32 && wide > 28 && wide < 1ull << 32, "bound of %u, %u by %u: %llu, %llu", c, w, h, (unsigned long long)bound, (unsigned long long)wide);
        else count(bound == 0 && wide == 0, "bound of %u, %u by %u: %llu, %llu", c, w, h, (unsigned long long)bound, (unsigned long long)wide);
        for (int eight = 0; eight < 2; eight++)
            for (size_t j = 0; j < SIZE_ENDS; j++) {
                struct encoding e = {eight, {c, w, h, 255, 0, 0, 0, 0}, 0, 0, size_ends[j]};
                refuses_unseen("no samples", &e, rows[i].possible ? JLSREC_TOO_FEW_SAMPLES : JLSREC_TOO_MANY_SAMPLES);
                e.count = size_ends[j];
                if (!rows[i].possible) refuses_unseen("too many samples", &e, JLSREC_TOO_MANY_SAMPLES);
            }
    }
}

/* Each argument of jlsrec_bound at the ends of its type. */
static void bounds(void) {
    const uint32_t good[] = {1, 4, 4, 255};
    const struct {
        int argument;
        uint32_t value;
        bool possible;
    } rows[] = {
        {0, 0, false}, {0, 1, true}, {0, 2, false}, {0, 3, true}, {0, 4, false}, {0, 65537, false}, {0, END31, false},
        {0, END31 + 1, false}, {0, END31 + 2, false}, {0, END32 - 1, false}, {0, END32, false},
        {1, 0, false}, {1, 1, true}, {1, 65535, true}, {1, 65536, false}, {1, 65540, false}, {1, END31, false},
        {1, END31 + 1, false}, {1, END31 + 5, false}, {1, END32 - 1, false}, {1, END32, false},
        {2, 0, false}, {2, 1, true}, {2, 65535, true}, {2, 65536, false}, {2, 65540, false}, {2, END31, false},
        {2, END31 + 1, false}, {2, END31 + 5, false}, {2, END32 - 1, false}, {2, END32, false},
        {3, 0, false}, {3, 1, true}, {3, 65535, true}, {3, 65536, false}, {3, 65791, false}, {3, END31, false},
        {3, END31 + 1, false}, {3, END31 + 256, false}, {3, END32 - 1, false}, {3, END32, false},
    };
    for (size_t i = 0; i < sizeof rows / sizeof *rows; i++) {
        uint32_t a[4];
        memcpy(a, good, sizeof a);
        a[rows[i].argument] = rows[i].value;
        uint64_t bound = jlsrec_bound(a[0], a[1], a[2], a[3]);
        count(rows[i].possible ? bound > 28 && bound < 1ull << 32 : bound == 0, "bound, argument %d: %u", rows[i].argument, rows[i].value);
    }
    const uint32_t ends[] = {0, END31, END31 + 1, END32};
    for (size_t i = 0; i < 4; i++) count(jlsrec_bound(ends[i], ends[i], ends[i], ends[i]) == 0, "bound, all arguments: %u", ends[i]);
}

/* The stride of the picture of Annex H.3, and how many samples there are. */
static void strides(void) {
    const struct {
        uint32_t width, height;
        size_t stride, samples;
        uint32_t want;
    } rows[] = {
        {4, 4, 0, 16, JLSREC_OK},
        {4, 4, 1, 16, JLSREC_BAD_STRIDE},
        {4, 4, 3, 16, JLSREC_BAD_STRIDE},
        {4, 4, 4, 16, JLSREC_OK},
        {4, 4, 4, 15, JLSREC_TOO_FEW_SAMPLES},
        {4, 4, 5, 18, JLSREC_TOO_FEW_SAMPLES},
        {4, 4, END31, 16, JLSREC_TOO_FEW_SAMPLES},
        {4, 4, (size_t)END31 + 1, 16, JLSREC_TOO_FEW_SAMPLES},
        {4, 4, END32, 16, JLSREC_TOO_FEW_SAMPLES},
        {4, 4, (size_t)END32 + 1, 16, JLSREC_TOO_FEW_SAMPLES},
        {4, 4, (size_t)END32 + 5, 16, JLSREC_TOO_FEW_SAMPLES},
        {4, 4, SIZE_MAX / 2, 16, JLSREC_TOO_FEW_SAMPLES},
        {4, 4, SIZE_MAX / 2 + 1, 16, JLSREC_TOO_FEW_SAMPLES},
        {4, 4, SIZE_MAX - 1, 16, JLSREC_TOO_FEW_SAMPLES},
        {4, 4, SIZE_MAX, 16, JLSREC_TOO_FEW_SAMPLES},
        /* stride * (height - 1), or its bytes, are a multiple of 2^64, or come to few once that was taken off */
        {4, 2, SIZE_MAX - 3, 16, JLSREC_TOO_FEW_SAMPLES},
        {4, 2, SIZE_MAX, 16, JLSREC_TOO_FEW_SAMPLES},
        {4, 3, SIZE_MAX / 2 + 1, 16, JLSREC_TOO_FEW_SAMPLES},
        {4, 3, SIZE_MAX / 2 + 3, 16, JLSREC_TOO_FEW_SAMPLES},
        {4, 5, SIZE_MAX / 4 + 1, 32, JLSREC_TOO_FEW_SAMPLES},
        {4, 4, SIZE_MAX / 3 + 1, 16, JLSREC_TOO_FEW_SAMPLES},
        {4, 65535, SIZE_MAX / 65534 + 1, 64, JLSREC_TOO_FEW_SAMPLES},
        {4, 32769, SIZE_MAX / 32768 + 1, 64, JLSREC_TOO_FEW_SAMPLES},
        /* of one row no stride is taken */
        {16, 1, 0, 16, JLSREC_OK},
        {16, 1, 15, 16, JLSREC_BAD_STRIDE},
        {16, 1, 16, 16, JLSREC_OK},
        {16, 1, END32, 16, JLSREC_OK},
        {16, 1, (size_t)END32 + 1, 16, JLSREC_OK},
        {16, 1, SIZE_MAX / 2, 16, JLSREC_OK},
        {16, 1, SIZE_MAX / 2 + 1, 16, JLSREC_OK},
        {16, 1, SIZE_MAX - 1, 16, JLSREC_OK},
        {16, 1, SIZE_MAX, 16, JLSREC_OK},
        {16, 1, SIZE_MAX, 15, JLSREC_TOO_FEW_SAMPLES},
    };
    uint8_t row_of_black[64];
    size_t black_need = black_codestream(row_of_black, 1, 16, 1, 8);
    for (size_t i = 0; i < sizeof rows / sizeof *rows; i++)
        for (int eight = 0; eight < 2; eight++) {
            bool one_row = rows[i].height == 1;
            struct encoding e = {eight, {1, rows[i].width, rows[i].height, 255, 0, 0, 0, 0}, rows[i].samples, rows[i].stride, 100};
            encodes("stride", &e, one_row, rows[i].want, one_row ? row_of_black : h3, one_row ? black_need : sizeof h3);
            if (rows[i].want == JLSREC_OK) continue;
            for (size_t j = 0; j < SIZE_ENDS; j++) {
                e.room = size_ends[j];
                refuses_unseen("stride", &e, rows[i].want);
            }
        }
}

/* ---- decoding, and what else reads bytes */

enum reading { DECODE_8, DECODE_16, READ_FORM, EXTENT, EXTENTS, STRICT };

static const char *const reading_names[] = {"decode_8", "decode_16", "read_form", "extent", "extents", "strict"};

struct answers {
    uint32_t status;
    jlsrec_form form;
    jlsrec_fault fault;
    size_t used; /* or the extent, or how many there are */
};

static __attribute__((noinline)) void read_bytes(enum reading reading, const void *bytes, size_t size, void *samples, size_t room, void *form, void *used, void *fault) {
    switch (reading) {
    case DECODE_8: CALL(status, jlsrec_decode_8(bytes, size, samples, room, form, used, fault)); break;
    case DECODE_16: CALL(status, jlsrec_decode_16(bytes, size, samples, room, form, used, fault)); break;
    case READ_FORM: CALL(status, jlsrec_read_form(bytes, size, form, fault)); break;
    case EXTENT: CALL(status, jlsrec_extent(bytes, size, used)); break;
    case EXTENTS: CALL(status, jlsrec_extents(bytes, size, samples, room, used, fault)); break;
    case STRICT: CALL(status, jlsrec_strict(bytes, size, used, fault)); break;
    }
}

/* A call on bytes and samples that stand where they stand; its other arguments at a guard. */
static void reads_at(const char *name, enum reading reading, enum side side, const uint8_t *bytes, size_t size, void *samples,
                     size_t room, const struct answers *want) {
    struct area form = area(sizeof(jlsrec_form), side), fault = area(sizeof(jlsrec_fault), side), used = area(sizeof(size_t), side);
    read_bytes(reading, bytes, size, samples, room, form.bytes, used.bytes, fault.bytes);
    bool holds = !caught && status == want->status && kept_after(&form, sizeof(jlsrec_form)) &&
                 kept_after(&fault, sizeof(jlsrec_fault)) && kept_after(&used, sizeof(size_t));
    if (reading == EXTENT || reading == EXTENTS || reading == STRICT) holds = holds && kept_after(&form, 0);
    else holds = holds && !memcmp(form.bytes, &want->form, sizeof want->form);
    if (reading == EXTENT) holds = holds && kept_after(&fault, 0);
    else holds = holds && !memcmp(fault.bytes, &want->fault, sizeof want->fault);
    if (reading == READ_FORM) holds = holds && kept_after(&used, 0);
    else holds = holds && number_at(&used) == want->used;
    count(holds, "%s of %s: %zu bytes, room %zu, side %d: %s %u in place of %u, used %zu in place of %zu", reading_names[reading],
          name, size, room, side, caught ? "caught;" : "status", status, want->status, number_at(&used), want->used);
    release(&form);
    release(&fault);
    release(&used);
}

/* The same with bytes and samples at a guard, of which the first `written` are to be those of `samples`. */
static void reads(const char *name, enum reading reading, const uint8_t *bytes, size_t size, size_t room, const struct answers *want,
                  const uint8_t *samples, size_t written) {
    for (int side = AT_END; side <= AT_FRONT; side++) {
        size_t each = reading == DECODE_16 ? 2 : reading == EXTENTS ? sizeof(size_t) : 1;
        struct area in = copy_of(bytes, size, side), out = area(room * each, side);
        reads_at(name, reading, side, in.bytes, size, out.bytes, room, want);
        bool holds = kept_after(&out, written * each);
        for (size_t i = 0; holds && samples && i < written; i++) {
            uint16_t word;
            memcpy(&word, out.bytes + i * each, each == 2 ? 2 : 0);
            holds = each == 2 ? word == samples[i] : out.bytes[i] == samples[i];
        }
        count(holds, "%s of %s: %zu bytes, room %zu, side %d: samples", reading_names[reading], name, size, room, side);
        release(&in);
        release(&out);
    }
}

static struct answers no_answers(uint32_t number) {
    struct answers a = {number, no_form, no_fault, 0};
    return a;
}

static void small_counts(void) {
    /* samples and room of encoding */
    for (int eight = 0; eight < 2; eight++) {
        struct encoding e = {eight, h3_form, 16, 0, 100};
        for (e.count = 0; e.count <= 20; e.count++)
            encodes("count", &e, false, e.count < 16 ? JLSREC_TOO_FEW_SAMPLES : JLSREC_OK, h3, sizeof h3);
        e.count = 16;
        for (e.room = 0; e.room <= sizeof h3 + 2; e.room++)
            encodes("room", &e, false, e.room < sizeof h3 ? JLSREC_NO_ROOM : JLSREC_OK, h3, sizeof h3);
        for (e.count = 0; e.count < 16; e.count++)
            for (size_t j = 0; j < SIZE_ENDS; j++) {
                e.room = size_ends[j];
                refuses_unseen("too few samples", &e, JLSREC_TOO_FEW_SAMPLES);
            }
    }
    /* bytes and room of decoding */
    for (size_t size = 0; size <= sizeof h3 + 2; size++) {
        uint8_t bytes[sizeof h3 + 2] = {0};
        memcpy(bytes, h3, sizeof h3);
        struct answers good = {JLSREC_OK, h3_form_in_force, no_fault, sizeof h3}, cut = no_answers(JLSREC_TRUNCATED);
        struct answers extent = {JLSREC_OK, no_form, no_fault, size < sizeof h3 ? size : sizeof h3};
        for (enum reading r = DECODE_8; r <= DECODE_16; r++) {
            if (size < sizeof h3) reads("Annex H.3", r, bytes, size, 16, &cut, NULL, size < H3_HEADERS ? 0 : 16);
            else reads("Annex H.3", r, bytes, size, 16, &good, h3_samples, 16);
        }
        good.used = 0;
        reads("Annex H.3", READ_FORM, bytes, size, 0, size < H3_HEADERS ? &cut : &good, NULL, 0);
        reads("Annex H.3", EXTENT, bytes, size, 0, &extent, NULL, 0);
        for (size_t room = 0; room < 3; room++) {
            size_t found = size >= sizeof h3 && room > 0, left = size - found * sizeof h3;
            struct answers extents = no_answers(left == 0 ? JLSREC_OK : found == room ? JLSREC_NO_ROOM : found ? JLSREC_NO_SOI : JLSREC_TRUNCATED);
            extents.used = found;
            reads("Annex H.3", EXTENTS, bytes, size, room, &extents, NULL, found);
        }
        struct answers strict = no_answers(size < sizeof h3 ? JLSREC_TRUNCATED : JLSREC_OK);
        strict.used = size < sizeof h3 ? 0 : sizeof h3;
        reads("Annex H.3", STRICT, bytes, size, 0, &strict, NULL, 0);
        struct answers full = {JLSREC_NO_ROOM, h3_form_in_force, no_fault, 0};
        for (size_t room = 0; room < 16; room++)
            for (enum reading r = DECODE_8; r <= DECODE_16; r++)
                reads("Annex H.3", r, bytes, size, room, size < H3_HEADERS ? &cut : &full, NULL, 0);
    }
    for (size_t room = 16; room < 20; room++)
        for (enum reading r = DECODE_8; r <= DECODE_16; r++) {
            struct answers good = {JLSREC_OK, h3_form_in_force, no_fault, sizeof h3};
            reads("Annex H.3", r, h3, sizeof h3, room, &good, h3_samples, 16);
        }
    count(jlsrec_version() == 100, "version");
}

/* Headers by themselves, whose numbers are at their ends: no byte of data is looked at, and no sample is written. */
static void header_numbers(void) {
    const struct {
        uint8_t components;
        uint16_t width, height;
        uint8_t precision;
        uint32_t want; /* of read_form and, if it isn't JLSREC_OK, of decoding */
    } rows[] = {
        {1, 1, 1, 8, JLSREC_OK},
        {1, 65535, 1, 8, JLSREC_OK},
        {1, 1, 65535, 8, JLSREC_OK},
        {1, 16384, 16384, 8, JLSREC_OK},
        {1, 16384, 16385, 8, JLSREC_TOO_LARGE},
        {1, 65535, 4096, 16, JLSREC_OK},
        {1, 65535, 4097, 16, JLSREC_TOO_LARGE},
        {3, 65535, 1365, 8, JLSREC_OK},
        {3, 65535, 1366, 8, JLSREC_TOO_LARGE},
        {3, 37838, 37838, 8, JLSREC_TOO_LARGE},
        {1, 65535, 65535, 8, JLSREC_TOO_LARGE},
        {3, 65535, 65535, 16, JLSREC_TOO_LARGE},
        {0, 1, 1, 8, JLSREC_UNSUPPORTED_COMPONENTS},
        {255, 1, 1, 8, JLSREC_UNSUPPORTED_COMPONENTS},
        {1, 1, 0, 8, JLSREC_HEIGHT_0},
        {1, 0, 1, 8, JLSREC_BAD_SEGMENT},
        {1, 1, 1, 0, JLSREC_BAD_SEGMENT},
        {1, 1, 1, 1, JLSREC_BAD_SEGMENT},
        {1, 1, 1, 17, JLSREC_BAD_SEGMENT},
        {1, 1, 1, 255, JLSREC_BAD_SEGMENT},
    };
    for (size_t i = 0; i < sizeof rows / sizeof *rows; i++) {
        static uint8_t bytes[4000];
        uint8_t *at = bytes;
        unsigned components = rows[i].components;
        unsigned segment = 8 + 3 * components;
        const uint8_t frame[] = {0xFF, 0xD8, 0xFF, 0xF7, (uint8_t)(segment >> 8), (uint8_t)segment, rows[i].precision, (uint8_t)(rows[i].height >> 8),
                                 (uint8_t)rows[i].height, (uint8_t)(rows[i].width >> 8), (uint8_t)rows[i].width, (uint8_t)components};
        memcpy(at, frame, sizeof frame);
        at += sizeof frame;
        for (unsigned id = 1; id <= components; id++) {
            *at++ = (uint8_t)id;
            *at++ = 0x11;
            *at++ = 0;
        }
        const uint8_t scan[] = {0xFF, 0xDA, 0, 8, 1, 1, 0, 0, 0, 0};
        memcpy(at, scan, sizeof scan);
        at += sizeof scan;
        size_t size = (size_t)(at - bytes);
        struct answers want = no_answers(rows[i].want);
        if (want.status == JLSREC_OK) {
            uint32_t maxval = (1u << rows[i].precision) - 1;
            want.form = (jlsrec_form){components, rows[i].width, rows[i].height, maxval, 3, 7, 21, 64};
            if (maxval == 65535) want.form.t1 = 18, want.form.t2 = 67, want.form.t3 = 276;
        }
        if (want.status == JLSREC_UNSUPPORTED_COMPONENTS) want.fault.number = components;
        char name[80];
        snprintf(name, sizeof name, "a header of %u, %u by %u, precision %u", components, rows[i].width, rows[i].height, rows[i].precision);
        reads(name, READ_FORM, bytes, size, 0, &want, NULL, 0);
        for (enum reading r = DECODE_8; r <= DECODE_16; r++) {
            struct answers decoding = want;
            if (want.status == JLSREC_OK) decoding.status = r == DECODE_8 && want.form.maxval > 255 ? JLSREC_NOT_8_BITS : JLSREC_NO_ROOM;
            reads(name, r, bytes, size, 0, &decoding, NULL, 0);
        }
    }
}

/* Segments before the frame header with lengths at the ends of theirs. */
static void segments(void) {
    static uint8_t bytes[70000];
    const uint32_t lengths[] = {0, 1, 2, 3, 32767, 32768, 65534, 65535};
    for (size_t i = 0; i < sizeof lengths / sizeof *lengths; i++) {
        size_t inside = lengths[i] < 2 ? 2 : lengths[i], size = sizeof h3 + 2 + inside;
        memcpy(bytes, h3, 2);
        bytes[2] = 0xFF;
        bytes[3] = 0xFE;
        bytes[4] = (uint8_t)(lengths[i] >> 8);
        bytes[5] = (uint8_t)lengths[i];
        memset(bytes + 6, 0xFF, inside - 2);
        memcpy(bytes + 4 + inside, h3 + 2, sizeof h3 - 2);
        struct answers want = {JLSREC_OK, h3_form_in_force, no_fault, size}, extent = want, form = want;
        form.used = 0;
        /* the byte that shows the fault is the last of the length */
        if (lengths[i] < 2) want = form = no_answers(JLSREC_BAD_SEGMENT), extent.used = 6;
        char name[64];
        snprintf(name, sizeof name, "a comment of length %u", lengths[i]);
        reads(name, DECODE_8, bytes, size, 16, &want, h3_samples, want.status == JLSREC_OK ? 16 : 0);
        reads(name, READ_FORM, bytes, size, 0, &form, NULL, 0);
        reads(name, EXTENT, bytes, size, 0, &extent, NULL, 0);
        struct answers cut = no_answers(JLSREC_TRUNCATED);
        if (lengths[i] >= 2) {
            reads(name, READ_FORM, bytes, 4 + inside, 0, &cut, NULL, 0);
            reads(name, DECODE_16, bytes, 3 + inside, 1, &cut, NULL, 0);
        }
    }
}

/* What stands after a codestream makes no difference to what is answered of it. */
static void bytes_after(void) {
    uint8_t bytes[sizeof h3 + 100];
    struct answers good = {JLSREC_OK, h3_form_in_force, no_fault, sizeof h3}, form = good, extent = good;
    form.used = 0;
    const uint8_t fillers[] = {0, 0xFF, 0x7F, 0x80, 0xD8, 0xD9};
    for (size_t i = 0; i <= sizeof fillers; i++) {
        memcpy(bytes, h3, sizeof h3);
        if (i < sizeof fillers) memset(bytes + sizeof h3, fillers[i], 100);
        else memcpy(bytes + sizeof h3, h3, sizeof h3), memset(bytes + 2 * sizeof h3, 0xFF, 100 - sizeof h3);
        for (size_t after = 0; after <= 100; after += after < 40 ? 1 : 12) {
            reads("Annex H.3 and more", DECODE_8, bytes, sizeof h3 + after, 16, &good, h3_samples, 16);
            reads("Annex H.3 and more", DECODE_16, bytes, sizeof h3 + after, 16, &good, h3_samples, 16);
            reads("Annex H.3 and more", READ_FORM, bytes, sizeof h3 + after, 0, &form, NULL, 0);
            reads("Annex H.3 and more", EXTENT, bytes, sizeof h3 + after, 0, &extent, NULL, 0);
        }
    }
}

/* A count of bytes or a room that the call doesn't come to: what stands before is faulty or says enough. */
static void unseen_counts(void) {
    const uint8_t no_soi[] = {0xFF, 0xD9};
    for (size_t i = 0; i < SIZE_ENDS; i++) {
        struct answers want = no_answers(JLSREC_NO_SOI), cut = no_answers(JLSREC_TRUNCATED);
        struct area bytes = copy_of(no_soi, sizeof no_soi, AT_END), few = copy_of(h3, H3_HEADERS - 1, AT_END);
        for (enum reading r = DECODE_8; r <= DECODE_16; r++) {
            reads_at("no SOI", r, AT_END, bytes.bytes, sizeof no_soi, nothing(), size_ends[i], &want);
            reads_at("headers cut", r, AT_END, few.bytes, H3_HEADERS - 1, nothing(), size_ends[i], &cut);
            reads_at("no bytes", r, AT_END, nothing(), 0, nothing(), size_ends[i], &cut);
        }
        release(&bytes);
        release(&few);
    }
}

/* The same memory twice for what is only read: a form whose bytes are the samples too. */
static void shared_input(void) {
    jlsrec_form form = {1, 32, 1, 255, 0, 0, 0, 0};
    struct area both = copy_of(&form, sizeof form, AT_END), bytes = area(300, AT_END), written = area(sizeof(size_t), AT_END);
    struct encoding e = {true, form, sizeof form, 0, 300};
    encode(&e, both.bytes, both.bytes, bytes.bytes, written.bytes);
    uint8_t back[32];
    jlsrec_form read;
    jlsrec_fault fault;
    size_t used, size = number_at(&written);
    count(!caught && status == JLSREC_OK && jlsrec_decode_8(bytes.bytes, size, back, 32, &read, &used, &fault) == JLSREC_OK &&
              !memcmp(back, &form, sizeof form) && !memcmp(both.bytes, &form, sizeof form),
          "a form that is its picture's samples");
    release(&both);
    release(&bytes);
    release(&written);
}

/* ---- texts */

static __attribute__((noinline)) void print(uint32_t number, const void *fault, void *text, size_t room) {
    CALL(length, jlsrec_text(number, fault, text, room));
}

static void text_at(uint32_t number, const jlsrec_fault *fault, size_t room, const char *want) {
    for (int side = AT_END; side <= AT_FRONT; side++) {
        struct area details = copy_of(fault, sizeof *fault, side), text = area(room, side);
        print(number, details.bytes, text.bytes, room);
        /* the answer is no longer than is said, and what is written is it, cut */
        size_t cut = room == 0 ? 0 : length < room ? length : room - 1;
        bool holds = !caught && length <= 64 && kept_after(&text, room ? cut + 1 : 0) && (room == 0 || text.bytes[cut] == 0) &&
                     (room == 0 || !memchr(text.bytes, 0, cut));
        if (want) holds = holds && length == strlen(want) && !memcmp(text.bytes, want, cut);
        count(holds, "text of %u, fault %u %u %u, room %zu, side %d%s", number, fault->component, fault->marker, fault->number, room,
              side, caught ? ": caught" : "");
        release(&details);
        release(&text);
    }
}

static void texts(void) {
    const uint32_t ends[] = {0, 1, 2, 255, 256, 65535, 65536, END31, END31 + 1, END32 - 1, END32};
    const size_t rooms[] = {0, 1, 2, 63, 64, 65, 66};
    const uint32_t none[] = {16, 19, 42, 256, 276, 65536, 65556, END31, END31 + 1, END31 + 21, END32 - 1, END32};
    for (size_t r = 0; r < sizeof rooms / sizeof *rooms; r++) {
        for (size_t i = 0; i < sizeof ends / sizeof *ends; i++) {
            for (uint32_t number = 0; number < 44; number++) {
                text_at(number, &(jlsrec_fault){ends[i], 0, 0}, rooms[r], NULL);
                text_at(number, &(jlsrec_fault){0, ends[i], 0}, rooms[r], NULL);
                text_at(number, &(jlsrec_fault){0, 0, ends[i]}, rooms[r], NULL);
                text_at(number, &(jlsrec_fault){ends[i], ends[i], ends[i]}, rooms[r], NULL);
            }
        }
        for (size_t i = 0; i < sizeof none / sizeof *none; i++) text_at(none[i], &no_fault, rooms[r], "unknown status");
        text_at(JLSREC_OK, &no_fault, rooms[r], "done");
        text_at(JLSREC_BAD_CODE, &(jlsrec_fault){2, 0, 0}, rooms[r], "bad code in component 2");
    }
}

/* ---- counts over 2^32 that are true */

#define GIB ((size_t)1 << 30)

/* Memory of this size that can be written, of which no page was touched. It ends at a guard. */
static struct area untouched(size_t size) {
    struct area a;
    a.accessible = whole_pages(size);
    a.mapped = a.accessible + 2 * PAGE;
    a.all = mapped(a.mapped, PROT_NONE);
    a.inner = a.all + PAGE;
    a.size = size;
    a.bytes = a.inner + a.accessible - size;
    access_to(a.inner, a.accessible, PROT_READ | PROT_WRITE);
    madvise(a.inner, a.accessible, MADV_NOHUGEPAGE);
    return a;
}

/* Whether all but the first bytes is as it was: no page behind theirs has any byte but 0. */
static bool untouched_after(const struct area *a, size_t first) {
    static uint8_t resident[65536];
    static const uint8_t zeros[PAGE];
    uint8_t *from = a->bytes + first, *page = a->inner + whole_pages((size_t)(from - a->inner)), *end = a->inner + a->accessible;
    for (; from < page; from++)
        if (*from) return false;
    while (page < end) {
        size_t pages = (size_t)(end - page) / PAGE < sizeof resident ? (size_t)(end - page) / PAGE : sizeof resident;
        if (mincore(page, pages * PAGE, resident)) exit(3);
        for (size_t i = 0; i < pages; i++)
            if (resident[i] & 1 && memcmp(page + i * PAGE, zeros, PAGE)) return false;
        page += pages * PAGE;
    }
    return true;
}

static const size_t true_ends[] = {END31, (size_t)END31 + 1, END32, (size_t)END32 + 1, (size_t)END32 + 2, (size_t)END32 + 17};
#define TRUE_ENDS (sizeof true_ends / sizeof *true_ends)

/* Counts of what is read, up to 2^46 bytes. Where it is said that nothing more is looked at, what follows can't be
 * accessed; after what is decoded, and after an extent, zeros follow. */
static void large_inputs(void) {
    const size_t more[] = {(size_t)1 << 40, ((size_t)1 << 45) + 1};
    for (size_t i = 0; i < TRUE_ENDS + 2; i++) {
        size_t size = i < TRUE_ENDS ? true_ends[i] : more[i - TRUE_ENDS];
        for (int eight = 0; eight < 2; eight++) {
            uint16_t values[16];
            h3_as(eight, values, 0, 16);
            size_t each = sample_size(eight);
            struct area samples = copy_before_nothing(values, 16 * each, size * each), bytes = area(100, AT_END);
            struct area written = area(sizeof(size_t), AT_END);
            struct encoding e = {eight, h3_form, size, 0, 100};
            encode(&e, &h3_form, samples.bytes, bytes.bytes, written.bytes);
            count(!caught && status == JLSREC_OK && number_at(&written) == sizeof h3 && !memcmp(bytes.bytes, h3, sizeof h3) &&
                      kept_after(&bytes, sizeof h3),
                  "%zu samples of %d bits: %s %u", size, eight ? 8 : 16, caught ? "caught;" : "status", status);
            release(&samples);
            release(&bytes);
            release(&written);
        }
        struct area all = copy_before_zeros(h3, sizeof h3, size), headers = copy_before_nothing(h3, H3_HEADERS, size);
        struct answers good = {JLSREC_OK, h3_form_in_force, no_fault, sizeof h3}, full = {JLSREC_NO_ROOM, h3_form_in_force, no_fault, 0};
        struct answers form = {JLSREC_OK, h3_form_in_force, no_fault, 0}, deep = {JLSREC_NOT_8_BITS, h3_form_in_force, no_fault, 0};
        for (enum reading r = DECODE_8; r <= DECODE_16; r++) {
            struct area samples = area(16 * (r == DECODE_8 ? 1 : 2), AT_END);
            reads_at("Annex H.3 before zeros", r, AT_END, all.bytes, size, samples.bytes, 16, &good);
            uint16_t values[16];
            h3_as(r == DECODE_8, values, 0, 16);
            count(!memcmp(samples.bytes, values, samples.size), "its samples");
            reads_at("headers before nothing", r, AT_END, headers.bytes, size, samples.bytes, 15, &full);
            count(!memcmp(samples.bytes, values, samples.size), "samples that are kept");
            release(&samples);
        }
        reads_at("headers before nothing", READ_FORM, AT_END, headers.bytes, size, NULL, 0, &form);
        release(&headers);
        uint8_t nine_bits[H3_HEADERS];
        memcpy(nine_bits, h3, H3_HEADERS);
        nine_bits[6] = 9;
        headers = copy_before_nothing(nine_bits, H3_HEADERS, size);
        /* C.2.4.1.1 of maxval 511: FACTOR is 2 */
        deep.form.maxval = 511;
        deep.form.t1 = 4, deep.form.t2 = 11, deep.form.t3 = 38;
        reads_at("headers of 9 bits before nothing", DECODE_8, AT_END, headers.bytes, size, nothing(), 0, &deep);
        release(&headers);
        good.form = no_form;
        reads_at("Annex H.3 before zeros", EXTENT, AT_END, all.bytes, size, NULL, 0, &good);
        release(&all);
    }
}

/* Rooms that are true, of which the call writes the front alone. */
static void large_outputs(void) {
    for (size_t i = 0; i < TRUE_ENDS; i++) {
        size_t room = true_ends[i];
        for (int eight = 0; eight < 2; eight++) {
            uint16_t values[16];
            h3_as(eight, values, 0, 16);
            struct area samples = copy_of(values, 16 * sample_size(eight), AT_END), bytes = untouched(room);
            struct area written = area(sizeof(size_t), AT_END);
            struct encoding e = {eight, h3_form, 16, 0, room};
            encode(&e, &h3_form, samples.bytes, bytes.bytes, written.bytes);
            count(!caught && status == JLSREC_OK && number_at(&written) == sizeof h3 && !memcmp(bytes.bytes, h3, sizeof h3) &&
                      untouched_after(&bytes, sizeof h3),
                  "encoding of %d bits, room %zu: %s %u", eight ? 8 : 16, room, caught ? "caught;" : "status", status);
            release(&bytes);
            e.form.reset = 1;
            bytes = untouched(room);
            encode(&e, &e.form, samples.bytes, bytes.bytes, written.bytes);
            count(!caught && status == JLSREC_BAD_RESET && number_at(&written) == 0 && untouched_after(&bytes, 0),
                  "refusal of %d bits, room %zu: %s %u", eight ? 8 : 16, room, caught ? "caught;" : "status", status);
            release(&bytes);
            release(&samples);
            release(&written);
        }
        for (enum reading r = DECODE_8; r <= DECODE_16; r++) {
            size_t each = r == DECODE_8 ? 1 : 2;
            struct answers good = {JLSREC_OK, h3_form_in_force, no_fault, sizeof h3}, cut = no_answers(JLSREC_TRUNCATED);
            struct area in = copy_of(h3, sizeof h3, AT_END), out = untouched(room * each);
            uint16_t values[16];
            h3_as(r == DECODE_8, values, 0, 16);
            reads_at("Annex H.3", r, AT_END, in.bytes, sizeof h3, out.bytes, room, &good);
            count(!memcmp(out.bytes, values, 16 * each) && untouched_after(&out, 16 * each), "%s, room %zu: samples", reading_names[r], room);
            memset(out.bytes, 0, 16 * each);
            reads_at("Annex H.3", r, AT_END, in.bytes, H3_HEADERS - 1, out.bytes, room, &cut);
            count(untouched_after(&out, 0), "%s of headers cut, room %zu: samples", reading_names[r], room);
            release(&in);
            release(&out);
        }
        struct area text = untouched(room);
        print(JLSREC_BAD_CODE, &no_fault, text.bytes, room);
        count(!caught && length == 23 && !strcmp((char *)text.bytes, "bad code in component 0") && untouched_after(&text, 24),
              "text, room %zu", room);
        release(&text);
    }
}

/* Strides of 2^31 samples and more that are true: the samples between the rows can't be accessed. */
static void large_strides(void) {
    const size_t strides[] = {END31, (size_t)END31 + 1, END32, (size_t)END32 + 1, (size_t)END32 + 5, ((size_t)1 << 40) + 3};
    for (size_t i = 0; i < sizeof strides / sizeof *strides; i++)
        for (int eight = 0; eight < 2; eight++) {
            size_t each = sample_size(eight), stride = strides[i], samples = 3 * stride + 4;
            uint8_t *all = mapped(whole_pages(samples * each) + 3 * PAGE, PROT_NONE);
            /* its row ends at a page that can't be accessed */
            uint8_t *first = all + 2 * PAGE - 4 * each;
            for (size_t row = 0; row < 4; row++) {
                uint8_t *from = first + row * stride * each, *page = all + (size_t)(from - all) / PAGE * PAGE;
                access_to(page, whole_pages((size_t)(from - page) + 4 * each), PROT_READ | PROT_WRITE);
                memset(page, 0xFF, whole_pages((size_t)(from - page) + 4 * each));
                uint16_t values[4];
                h3_as(eight, values, 4 * row, 4);
                memcpy(from, values, 4 * each);
                access_to(page, whole_pages((size_t)(from - page) + 4 * each), PROT_READ);
            }
            struct area bytes = area(100, AT_END), written = area(sizeof(size_t), AT_END);
            struct encoding e = {eight, h3_form, samples, stride, 100};
            encode(&e, &h3_form, first, bytes.bytes, written.bytes);
            count(!caught && status == JLSREC_OK && number_at(&written) == sizeof h3 && !memcmp(bytes.bytes, h3, sizeof h3) &&
                      kept_after(&bytes, sizeof h3),
                  "stride %zu of %d bits: %s %u", stride, eight ? 8 : 16, caught ? "caught;" : "status", status);
            e.count--;
            encode(&e, &h3_form, first, nothing(), written.bytes);
            count(!caught && status == JLSREC_TOO_FEW_SAMPLES && number_at(&written) == 0, "stride %zu of %d bits, a sample less: %s %u",
                  stride, eight ? 8 : 16, caught ? "caught;" : "status", status);
            munmap(all, whole_pages(samples * each) + 3 * PAGE);
            release(&bytes);
            release(&written);
        }
}

/* Black pictures of 2^28 samples, the most that there are, and of the longest rows and columns. */
static void large_pictures(void) {
    const struct {
        uint32_t components, width, height;
        bool eight;
    } rows[] = {{1, 16384, 16384, true}, {1, 65535, 4096, false}, {3, 1365, 65535, true}};
    for (size_t i = 0; i < sizeof rows / sizeof *rows; i++) {
        uint32_t c = rows[i].components, w = rows[i].width, h = rows[i].height, precision = rows[i].eight ? 8 : 16;
        size_t samples = (size_t)c * w * h, each = sample_size(rows[i].eight);
        static uint8_t coded[1 << 20];
        size_t need = black_codestream(coded, c, w, h, precision), bound = jlsrec_bound(c, w, h, (1u << precision) - 1);
        count(need <= sizeof coded && need <= bound, "black picture %zu: bound %zu", i, bound);
        struct area black = untouched(samples * each), written = area(sizeof(size_t), AT_END), bytes = untouched(bound);
        access_to(black.inner, black.accessible, PROT_READ);
        struct encoding e = {rows[i].eight, {c, w, h, (1u << precision) - 1, 0, 0, 0, 0}, samples, 0, bound};
        encode(&e, &e.form, black.bytes, bytes.bytes, written.bytes);
        count(!caught && status == JLSREC_OK && number_at(&written) == need && !memcmp(bytes.bytes, coded, need) && untouched_after(&bytes, need),
              "black picture %zu: %s %u, written %zu of %zu", i, caught ? "caught;" : "status", status, number_at(&written), need);
        release(&black);
        release(&bytes);
        release(&written);
        struct answers good = {JLSREC_OK, {c, w, h, (1u << precision) - 1, 3, 7, 21, 64}, no_fault, need};
        if (precision == 16) good.form.t1 = 18, good.form.t2 = 67, good.form.t3 = 276;
        struct area in = copy_of(coded, need, AT_END), out = untouched(samples * each);
        /* some samples that are to be written over */
        memset(out.bytes, 0xFF, 1000);
        memset(out.bytes + samples * each - 1000, 0xFF, 1000);
        reads_at("a black picture", rows[i].eight ? DECODE_8 : DECODE_16, AT_END, in.bytes, need, out.bytes, samples, &good);
        count(untouched_after(&out, 0), "black picture %zu: samples", i);
        good.status = JLSREC_NO_ROOM;
        good.used = 0;
        reads_at("a black picture", rows[i].eight ? DECODE_8 : DECODE_16, AT_END, in.bytes, need, nothing(), samples - 1, &good);
        release(&in);
        release(&out);
    }
}

/* ---- codestreams of 4,294,967,295 bytes and more */

/* A black sample: its codestream after SOI. */
static const uint8_t black_rest[] = {0xFF, 0xF7, 0, 11, 8, 0, 1, 0, 1, 1, 1, 0x11, 0, 0xFF, 0xDA, 0, 8, 1, 1, 0, 0, 0, 0, 0x80, 0xFF, 0xD9};
static const jlsrec_form black_form = {1, 1, 1, 255, 3, 7, 21, 64};
/* its scan's data begins so many bytes before the end */
#define BLACK_DATA 3

#define BLOCK ((size_t)65536)

/* A codestream of a black sample, of 2^32 - 1 bytes and `more`: comments stand in front of its frame header. It ends at
 * a guard. Most of the comments are the same memory. */
static struct area longest(size_t more) {
    struct area a;
    const size_t blocks = 65535, last = PAGE - sizeof black_rest, first = (size_t)END32 + more - blocks * BLOCK - 2 - PAGE;
    a.accessible = BLOCK + blocks * BLOCK + PAGE;
    a.mapped = a.accessible + 2 * PAGE;
    a.all = mapped(a.mapped, PROT_NONE);
    a.inner = a.all + PAGE;
    a.size = (size_t)END32 + more;
    a.bytes = a.inner + a.accessible - a.size;
    int file = memfd_create("comments", 0);
    const size_t many = 64;
    if (file < 0 || ftruncate(file, (off_t)(many * BLOCK))) exit(3);
    for (size_t done = 0; done < blocks;) {
        size_t now = blocks - done < many ? blocks - done : many;
        uint8_t *to = a.inner + BLOCK + done * BLOCK;
        if (mmap(to, now * BLOCK, PROT_READ | PROT_WRITE, MAP_SHARED | MAP_FIXED, file, 0) == MAP_FAILED) exit(3);
        if (done == 0)
            for (size_t i = 0; i < now; i++) memcpy(to + i * BLOCK, (const uint8_t[]){0xFF, 0xFE, 0xFF, 0xFE}, 4);
        done += now;
    }
    close(file);
    access_to(a.inner, BLOCK, PROT_READ | PROT_WRITE);
    uint8_t *tail = a.inner + BLOCK + blocks * BLOCK;
    access_to(tail, PAGE, PROT_READ | PROT_WRITE);
    const uint8_t front[] = {0xFF, 0xD8, 0xFF, 0xFE, (uint8_t)((first - 2) >> 8), (uint8_t)(first - 2)};
    memcpy(a.bytes, front, sizeof front);
    const uint8_t end[] = {0xFF, 0xFE, (uint8_t)((last - 2) >> 8), (uint8_t)(last - 2)};
    memcpy(tail, end, sizeof end);
    memcpy(tail + last, black_rest, sizeof black_rest);
    access_to(a.inner, a.accessible, PROT_READ);
    return a;
}

static void longest_codestreams(void) {
    const struct answers form = {JLSREC_OK, black_form, no_fault, 0}, good = {JLSREC_OK, black_form, no_fault, END32};
    const struct answers full = {JLSREC_NO_ROOM, black_form, no_fault, 0};
    const struct answers cut = no_answers(JLSREC_TRUNCATED), large = no_answers(JLSREC_TOO_LARGE);
    for (size_t more = 0; more < 6; more++) {
        struct area a = longest(more);
        struct area samples = area(1, AT_END);
        /* the headers end within the first 2^32 - 1 bytes, and so does all of it */
        bool opened = more <= BLACK_DATA, whole = more == 0;
        char name[64];
        snprintf(name, sizeof name, "2^32 - 1 bytes and %zu", more);
        reads_at(name, READ_FORM, AT_END, a.bytes, a.size, NULL, 0, opened ? &form : &large);
        reads_at(name, DECODE_8, AT_END, a.bytes, a.size, samples.bytes, 0, opened ? &full : &large);
        reads_at(name, DECODE_8, AT_END, a.bytes, a.size, samples.bytes, 1, whole ? &good : &large);
        if (whole) count(samples.bytes[0] == 0, "%s: its sample", name);
        struct area words = area(2, AT_END);
        reads_at(name, DECODE_16, AT_END, a.bytes, a.size, words.bytes, 1, whole ? &good : &large);
        /* no more bytes than a codestream may have, and too few: they end before it does */
        reads_at(name, READ_FORM, AT_END, a.bytes, a.size - BLACK_DATA - 1, NULL, 0, a.size - BLACK_DATA - 1 > END32 ? &large : &cut);
        reads_at(name, DECODE_8, AT_END, a.bytes, END32 - 1, samples.bytes, 1, &cut);
        reads_at(name, DECODE_8, AT_END, a.bytes, (size_t)END32 - 100, samples.bytes, 1, &cut);
        reads_at(name, READ_FORM, AT_END, a.bytes, (size_t)END31, NULL, 0, &cut);
        reads_at(name, READ_FORM, AT_END, a.bytes, (size_t)END31 + 1, NULL, 0, &cut);
        /* by the markers alone: none of these takes memory */
        struct area sizes = area(2 * sizeof(size_t), AT_END);
        struct answers one = no_answers(JLSREC_OK);
        one.used = 1;
        reads_at(name, EXTENTS, AT_END, a.bytes, a.size, sizes.bytes, 2, whole ? &one : &large);
        if (whole) count(number_at(&sizes) == END32, "%s: its size", name);
        if (!whole) reads_at(name, EXTENTS, AT_END, a.bytes, END32, sizes.bytes, 2, &large);
        reads_at(name, EXTENTS, AT_END, a.bytes, END32 - 1, sizes.bytes, 2, &cut);
        release(&sizes);
        release(&a);
        release(&samples);
        release(&words);
    }
}

static void longest_extents(void) {
    const struct answers good = {JLSREC_OK, no_form, no_fault, END32}, large = no_answers(JLSREC_TOO_LARGE);
    struct area a = longest(0);
    reads_at("2^32 - 1 bytes", EXTENT, AT_END, a.bytes, a.size, NULL, 0, &good);
    release(&a);
    a = longest(1);
    reads_at("2^32 bytes", EXTENT, AT_END, a.bytes, a.size, NULL, 0, &large);
    reads_at("2^32 - 1 bytes of more", EXTENT, AT_END, a.bytes, END32, NULL, 0, &large);
    release(&a);
}

int main(int argc, char **argv) {
    const char *word = argc == 2 ? argv[1] : "";
    if (sysconf(_SC_PAGESIZE) != (long)PAGE) {
        fprintf(stderr, "ends: pages aren't of 4096 bytes\n");
        return 2;
    }
    catch_signals();
    if (!strcmp(word, "forms")) {
        form_numbers();
        all_numbers();
        sizes();
        bounds();
        strides();
    } else if (!strcmp(word, "counts")) {
        small_counts();
        header_numbers();
        segments();
        bytes_after();
        unseen_counts();
        shared_input();
    } else if (!strcmp(word, "texts")) {
        texts();
    } else if (!strcmp(word, "large")) {
        large_inputs();
        large_outputs();
        large_strides();
        large_pictures();
    } else if (!strcmp(word, "longest")) {
        longest_codestreams();
    } else if (!strcmp(word, "extent")) {
        longest_extents();
    } else {
        fprintf(stderr, "ends: no such test\n");
        return 2;
    }
    printf("%u passed, %u failed\n", passed, failed);
    return failed != 0;
}
