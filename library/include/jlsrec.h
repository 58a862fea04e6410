/* Lossless JPEG-LS (ITU-T T.87) for C99 and C++17: pictures of one or three components, of 1 to 16 bits per sample,
 * with one scan per component. What each call returns and what it leaves in memory is proved, as described here, except
 * that NO_MEMORY is returned if an allocation fails, and only then, which is tested.
 *
 * Calls keep no state, and may be made from any thread at any time, also at the same time as others. Encoding,
 * decoding, jlsrec_extent and jlsrec_strict call malloc, realloc and free; the other calls don't.
 *
 * The caller guarantees, for every call:
 *   - each pointer is valid, non-null and aligned for its type, even if the count beside it is 0 (it may then point
 *     just past an array's last element);
 *   - it points to as many elements as the count beside it says, of fewer than 2^63 bytes in all;
 *   - memory that a call writes overlaps no other memory passed to the same call, and nobody else reads or writes it
 *     during the call; nobody writes memory that the call reads during the call;
 *   - malloc, realloc and free belong to one allocator, and return memory that is aligned as the C standard requires;
 *   - no call is made from a signal handler, or in the child of a fork of a process with threads.
 *
 * Samples are ordered by rows from the top, by pixels from the left within a row, and by components (red, green, blue)
 * within a pixel; but the calls with `planes` in their names have all rows of one component before those of the next. */
#ifndef JLSREC_H
#define JLSREC_H

#include <stddef.h>
#include <stdint.h>

#ifdef __cplusplus
extern "C" {
#endif

/* The statuses that calls return. A call's own comment names those that it may return, and in which order it checks for
 * them. */
enum jlsrec_status {
    JLSREC_OK = 0,
    /* malloc or realloc failed. */
    JLSREC_NO_MEMORY = 1,
    /* The output buffer is too small. */
    JLSREC_NO_ROOM = 2,

    /* A form or samples that can't be encoded. */
    JLSREC_BAD_COMPONENTS = 3,    /* neither 1 nor 3 components */
    JLSREC_BAD_SIZE = 4,          /* width or height isn't 1 to 65535 */
    JLSREC_TOO_MANY_SAMPLES = 5,  /* width * height * components is over 2^28 */
    JLSREC_BAD_MAXVAL = 6,        /* maxval isn't 1 to 65535 */
    JLSREC_BAD_STRIDE = 7,        /* the stride isn't 0 and is less than a row, or, in bytes, splits a sample */
    JLSREC_TOO_FEW_SAMPLES = 8,   /* the buffer ends before the last row does */
    JLSREC_SAMPLE_TOO_LARGE = 9,  /* a sample is over maxval */
    JLSREC_BAD_T1 = 10,           /* T1 isn't 1 to maxval (Table C.2), after each 0 was replaced by its default */
    JLSREC_BAD_T2 = 11,           /* T2 isn't T1 to maxval */
    JLSREC_BAD_T3 = 12,           /* T3 isn't T2 to maxval */
    JLSREC_BAD_RESET = 13,        /* RESET isn't 3 to the greater of 255 and maxval */
    JLSREC_NOT_8_BITS = 14,       /* of the calls for uint8_t: maxval is over 255 */

    /* Of jlsrec_strict alone: the data of fault.component has other bits after its samples than encoding writes. */
    JLSREC_NOT_STRICT = 15,

    /* Bytes that can't be decoded: the first fault, from left to right. */
    JLSREC_TRUNCATED = 20,        /* the bytes end before the codestream does */
    JLSREC_NO_SOI = 21,           /* the bytes don't begin with SOI (T.81 B.2.1) */
    JLSREC_BAD_SEGMENT = 22,      /* a marker is missing or misplaced, or a length or a field is wrong */
    JLSREC_UNSUPPORTED_MARKER = 23,     /* fault.marker: not SOI at the front, SOF55, LSE, SOS, EOI, APPn or COM */
    JLSREC_UNSUPPORTED_COMPONENTS = 24, /* fault.number components (Nf; T.87 C.2.2) */
    JLSREC_HEIGHT_0 = 25,         /* a height of 0, which a later segment would have to give (Y; C.2.2) */
    JLSREC_SAMPLING = 26,         /* sampling factors other than 1 (Hi, Vi; C.2.2) */
    JLSREC_MAPPING_TABLE = 27,    /* a mapping table (Tmi; C.2.3) */
    JLSREC_NEAR_LOSSLESS = 28,    /* coding with losses (NEAR; C.2.3) */
    JLSREC_INTERLEAVE = 29,       /* several components in one scan (Ns, ILV; C.2.3) */
    JLSREC_POINT_TRANSFORM = 30,  /* a point transform (Pt; C.2.3) */
    JLSREC_LSE_ID = 31,           /* fault.number: an LSE segment with another ID than 1 (C.2.4.1) */
    JLSREC_LSE_LATE = 32,         /* an LSE segment after the header of the first scan */
    JLSREC_SCAN_ORDER = 33,       /* a scan of another component than the next (Cs; C.2.3) */
    JLSREC_PRESET_MAXVAL = 34,    /* preset parameters that are out of their ranges (Table C.2): MAXVAL */
    JLSREC_PRESET_T1 = 35,
    JLSREC_PRESET_T2 = 36,
    JLSREC_PRESET_T3 = 37,
    JLSREC_PRESET_RESET = 38,
    JLSREC_TOO_LARGE = 39,        /* over 2^28 samples; or a byte after the first 4,294,967,295 is there and needed */
    JLSREC_BAD_CODE = 40,         /* the data of fault.component has a code that no encoder writes, or ends early */
    JLSREC_LEFTOVER_BITS = 41     /* after the samples of fault.component its data has 16 bits or more */
};

/* The form of a picture. */
typedef struct jlsrec_form {
    uint32_t components; /* samples a pixel: 1 or 3 */
    uint32_t width;      /* pixels a row: 1 to 65535 */
    uint32_t height;     /* rows: 1 to 65535; width * height * components is at most 2^28 */
    uint32_t maxval;     /* the greatest value that a sample may have: 1 to 65535 */
    /* Coding parameters (T.87 C.2.4.1.1): 0 stands for the default of maxval. */
    uint32_t t1, t2, t3, reset;
} jlsrec_form;

/* Details of a fault that its status doesn't say. Members that don't apply to the fault are 0. */
typedef struct jlsrec_fault {
    uint32_t component; /* NOT_STRICT, BAD_CODE, LEFTOVER_BITS: the component, from 0 */
    uint32_t marker;    /* UNSUPPORTED_MARKER: the marker's code */
    uint32_t number;    /* UNSUPPORTED_COMPONENTS: how many; LSE_ID: the ID */
} jlsrec_fault;

/* Returns a number of bytes that is enough for the codestream of any picture of this form, with any coding parameters:
 * less than 2^32. 0 if there is no picture of this form. */
uint64_t jlsrec_bound(uint32_t components, uint32_t width, uint32_t height, uint32_t maxval);

/* Encodes a picture.
 *
 *   form     the picture's form, and the coding parameters
 *   samples  its samples, each at most form->maxval, in a buffer of `count` samples
 *   stride   the number of samples from the start of a row to the start of the next; 0 stands for width * components
 *   bytes    the buffer for the codestream, of `room` bytes; jlsrec_bound bytes are always enough
 *   written  receives the codestream's size, in bytes
 *
 * Samples between rows, and after the last row, may have any value.
 *
 * JLSREC_OK: the first *written bytes are T.87's codestream of this picture with these parameters; those after them are
 * unchanged. A buffer of exactly *written bytes is enough.
 * JLSREC_NO_ROOM: *written is the number of bytes needed, and `bytes` is unchanged.
 * Any other status: *written is 0, and `bytes` is unchanged. The status is the first that applies of BAD_COMPONENTS,
 * BAD_SIZE, TOO_MANY_SAMPLES, BAD_MAXVAL, NOT_8_BITS (jlsrec_encode_8 alone), BAD_T1, BAD_T2, BAD_T3, BAD_RESET,
 * BAD_STRIDE, TOO_FEW_SAMPLES; or, if none applies, NO_MEMORY or SAMPLE_TOO_LARGE. NO_ROOM is returned only if none of
 * these is. */
uint32_t jlsrec_encode_8(const jlsrec_form *form, const uint8_t *samples, size_t count, size_t stride, uint8_t *bytes,
                         size_t room, size_t *written);
uint32_t jlsrec_encode_16(const jlsrec_form *form, const uint16_t *samples, size_t count, size_t stride, uint8_t *bytes,
                          size_t room, size_t *written);

/* Encodes a picture of which all samples of a component, row by row, stand before those of the next one.
 *
 *   stride   the number of bytes from the start of a row to the start of the next, also from the last row of a
 *            component to the first of the next one; 0 stands for width times the size of a sample
 *
 * All else is as for jlsrec_encode_8 and jlsrec_encode_16: the codestream is the same as of the picture's samples in
 * their order, and so are the statuses. If the stride is that of rows without gaps, the samples aren't copied. */
uint32_t jlsrec_encode_planes_8(const jlsrec_form *form, const uint8_t *samples, size_t count, size_t stride,
                                uint8_t *bytes, size_t room, size_t *written);
uint32_t jlsrec_encode_planes_16(const jlsrec_form *form, const uint16_t *samples, size_t count, size_t stride,
                                 uint8_t *bytes, size_t room, size_t *written);

/* Reads the headers at the front of `count` bytes: SOI, the frame header, the coding parameters and the first scan's
 * header.
 *
 *   form     receives the form of the picture, with the coding parameters in force
 *   fault    receives the details of the fault
 *
 * JLSREC_OK: all of these are there and valid, and *form is the one that they give. It is always returned if the bytes
 * begin with a codestream of a picture, and *form is then that picture's. *fault is all 0.
 * 20 and above: the first fault, with its details in *fault; *form is all 0. No other status is returned. */
uint32_t jlsrec_read_form(const uint8_t *bytes, size_t count, jlsrec_form *form, jlsrec_fault *fault);

/* Decodes the codestream at the front of `count` bytes. Bytes after it don't affect the result, but may be read: nobody
 * may write them during the call.
 *
 *   bytes    the bytes
 *   samples  the buffer for the samples, of `room` samples: width * height * components are needed
 *   form     receives the form of the picture, with the coding parameters in force
 *   used     receives the codestream's size, in bytes
 *   fault    receives the details of the fault
 *
 * JLSREC_OK: the first *used bytes are a codestream of exactly one picture, which *form and the samples are; samples
 * after these are unchanged. If the bytes begin with a codestream of a picture, this is returned, or NO_MEMORY, or one
 * of the next two.
 * JLSREC_NOT_8_BITS (jlsrec_decode_8 alone): everything before the data of the first scan is valid, and describes a
 * picture of *form, whose maxval is over 255.
 * JLSREC_NO_ROOM: the same, but the maxval fits, and the picture has more than `room` samples. With both statuses the
 * data may be faulty, *used is 0, and `samples` is unchanged.
 * JLSREC_NO_MEMORY: only if everything before the data of the first scan is valid, and describes a picture that fits in
 * `samples`, which is unchanged.
 * 20 and above: the first fault, with its details in *fault (for other statuses *fault is all 0). The first samples, as
 * many as the picture has, are unspecified; those after them are unchanged.
 * After JLSREC_NO_MEMORY, and after 20 and above, *used is 0 and *form is all 0. */
uint32_t jlsrec_decode_8(const uint8_t *bytes, size_t count, uint8_t *samples, size_t room, jlsrec_form *form, size_t *used,
                         jlsrec_fault *fault);
uint32_t jlsrec_decode_16(const uint8_t *bytes, size_t count, uint16_t *samples, size_t room, jlsrec_form *form,
                          size_t *used, jlsrec_fault *fault);

/* Decodes the codestream at the front of `count` bytes to samples that stand as jlsrec_encode_planes_8 and
 * jlsrec_encode_planes_16 read them.
 *
 *   stride   the number of bytes from the start of a row to the start of the next, as there
 *
 * All else is as for jlsrec_decode_8 and jlsrec_decode_16, with these differences:
 * JLSREC_OK: samples between rows are unchanged too.
 * JLSREC_BAD_STRIDE, or JLSREC_NO_ROOM: everything before the data of the first scan is valid, and describes a picture
 * of *form that has no more than `room` samples, but the stride isn't 0 and is less than a row or splits a sample, or
 * else the last row ends after `room` samples. The data may be faulty, *used is 0, *fault is all 0, and `samples` is
 * unchanged. */
uint32_t jlsrec_decode_planes_8(const uint8_t *bytes, size_t count, uint8_t *samples, size_t room, size_t stride,
                                jlsrec_form *form, size_t *used, jlsrec_fault *fault);
uint32_t jlsrec_decode_planes_16(const uint8_t *bytes, size_t count, uint16_t *samples, size_t room, size_t stride,
                                 jlsrec_form *form, size_t *used, jlsrec_fault *fault);

/* For checkers: decodes the codestream at the front of `count` bytes, and compares the data of its scans with those
 * that encoding its picture with its parameters gives. After the bits of a component's samples decoding accepts up to
 * 15 others, of any value; encoding fills up the last byte with 0 and adds nothing. Segments and fill bytes aren't
 * compared.
 *
 *   used     receives the codestream's size, in bytes
 *   fault    receives the details of the fault
 *
 * JLSREC_OK: the first *used bytes are a codestream of exactly one picture, and the data of each of its scans are
 * exactly those that encoding gives.
 * JLSREC_NOT_STRICT: they are a codestream of exactly one picture, and the scan of fault->component is the first with
 * other data.
 * If the bytes begin with a codestream of a picture, one of these is returned, or NO_MEMORY.
 * JLSREC_NO_MEMORY: only if everything before the data of the first scan is valid.
 * 20 and above: the first fault, with its details in *fault, as decoding returns it.
 * After NO_MEMORY, and after 20 and above, *used is 0; after OK and NO_MEMORY *fault is all 0. */
uint32_t jlsrec_strict(const uint8_t *bytes, size_t count, size_t *used, jlsrec_fault *fault);

/* Finds the size of the next codestream by its markers alone, where codestreams follow one another: the bytes up to and
 * including EOI; or up to and including the byte that shows that the markers are malformed; or all bytes, if they end
 * before either. If the bytes begin with a codestream of a picture, these are it; otherwise they have the same first
 * fault as all bytes. Bytes after these don't affect the result, but may be read.
 *
 * JLSREC_OK: *extent is that size. It is 0 only if `count` is.
 * JLSREC_NO_MEMORY: only if `count` isn't 0. *extent is 0.
 * JLSREC_TOO_LARGE: the first 4,294,967,295 bytes show neither EOI nor malformed markers. *extent is 0. */
uint32_t jlsrec_extent(const uint8_t *bytes, size_t count, size_t *extent);

/* Finds the sizes of the codestreams that stand one after the other at the front of `count` bytes, by their markers
 * alone: each is what jlsrec_extent says at its place. It allocates nothing, and looks at no more bytes than it needs.
 *
 *   extents  the buffer for the sizes, of `room` of them
 *   found    receives how many sizes there are
 *   fault    receives the details of the fault
 *
 * The first *found of `extents` are the sizes, from the front on, of codestreams that each end with EOI; the others are
 * unchanged. What follows these codestreams is the rest. The status says why there are no more sizes:
 * JLSREC_OK: the rest is empty.
 * JLSREC_NO_ROOM: it isn't, and *found is `room`. It wasn't looked at.
 * JLSREC_TRUNCATED: it ends before EOI, and shows no malformed marker: with more bytes it may get there. It has fewer
 * than 4,294,967,295 bytes.
 * JLSREC_TOO_LARGE: its first 4,294,967,295 bytes show neither EOI nor a malformed marker.
 * JLSREC_NO_SOI, JLSREC_BAD_SEGMENT, JLSREC_UNSUPPORTED_MARKER: this is the first fault of its markers, with its
 * details in *fault (for other statuses *fault is all 0). Decoding may return another one, which is before it.
 * No other status is returned. After each but NO_ROOM the rest begins with no codestream of a picture. */
uint32_t jlsrec_extents(const uint8_t *bytes, size_t count, size_t *extents, size_t room, size_t *found,
                        jlsrec_fault *fault);

/* Writes the English text of a status: "bad code in component 1"; for a number that is no status, "unknown status".
 * `fault` is what the call wrote; for a call that has none, all 0.
 *
 *   text     the buffer for the text, which is cut to `room` - 1 bytes and followed by a 0; nothing is written if
 *            `room` is 0. Bytes after that 0 are unchanged
 *
 * Returns the length of the uncut text in bytes, without the 0: at most 64. The text has no byte 0. */
size_t jlsrec_text(uint32_t status, const jlsrec_fault *fault, char *text, size_t room);

/* Returns the version of the library: 10000 times its first number, plus 100 times the second, plus the third. */
uint32_t jlsrec_version(void);

#ifdef __cplusplus
}
#endif

#endif
