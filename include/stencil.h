/* The library for C and C++: whether a text is a strict script without errors, its image, and what an image holds.
 *
 * Link with libstencil_c.a. No call keeps anything between calls, so any thread may call at any time; none may be called from a
 * signal handler. Memory comes from the program's malloc. A deep text takes up to 32 MiB of stack. */
#ifndef STENCIL_H
#define STENCIL_H

#include <stddef.h>
#include <stdint.h>

#ifdef __cplusplus
extern "C" {
#endif

enum stencil_kind {
    STENCIL_FINE = 0,
    STENCIL_TOO_LONG = 1,       /* more than 16,777,215 bytes */
    STENCIL_NOT_UTF8 = 2,       /* from this offset on */
    STENCIL_UNEXPECTED = 3,     /* no script goes on with the token at this offset */
    STENCIL_TOO_DEEP = 4,       /* the token at this offset stands inside more than 400 nodes */
    STENCIL_EARLY_ERROR = 5,    /* an early error of ECMA-262: rule, offset */
    STENCIL_NO_FUNCTION = 6,    /* a wanted function that is not there */
    STENCIL_NO_IMAGE = 7,       /* the bytes are no image */
    STENCIL_UNSOUND = 8,        /* the code of script `count` could take from an empty stack, or leave its instructions */
    STENCIL_NO_MEMORY = 9,
    STENCIL_SMALL_ROOM = 10     /* nothing was written; `needed` bytes of room are wanted */
};

struct stencil_answer {
    uint32_t kind;   /* an enum stencil_kind */
    uint32_t rule;   /* of an early error, 1 to 14 */
    uint64_t offset; /* where a text is refused, in bytes */
    uint64_t count;  /* functions of a text; the deepest stack of an image's code; the script whose code is unsound */
    uint64_t needed; /* bytes of an image or a listing */
};

/* How many functions the script has that this text is, or why it is refused. The text is any bytes; a pointer to no bytes must not
 * be null. */
struct stencil_answer stencil_check(const uint8_t *text, size_t length);

/* The image of the script, all of it compiled, at the front of room. */
struct stencil_answer stencil_image(const uint8_t *text, size_t length, uint8_t *room, size_t size);

/* Whether all code of an image may run. The image may come from anywhere. */
struct stencil_answer stencil_verify(const uint8_t *image, size_t length);

/* The lines of an image's code, at the front of room. They end with a line end and no zero. */
struct stencil_answer stencil_listing(const uint8_t *image, size_t length, uint8_t *room, size_t size);

#ifdef __cplusplus
}
#endif

#endif
