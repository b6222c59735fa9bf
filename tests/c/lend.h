/* Slices to lend to a call. Each stands between two fences: a write into a fence is seen by its pattern, and
 * under valgrind a read too.
 */
#ifndef LEND_H
#define LEND_H

#include <stddef.h>
#include <stdint.h>

/* Bytes that a test has, to be copied into a slice. With `at` NULL the slice is a null pointer. */
typedef struct {
    const void *at;
    size_t len;
} bytes;

#define TEXT(quoted) ((bytes){(quoted), sizeof(quoted) - 1})
#define NONE ((bytes){"", 0})
#define NULL_SLICE ((bytes){NULL, 0})

typedef struct {
    uint8_t *at;  /* what is lent */
    size_t len;
    uint8_t *block; /* fence, slice, fence */
    uint8_t *was;   /* a copy of what was lent */
} lent;

/* As a length: lend a null pointer and no bytes. */
#define NULL_LENGTH ((size_t)-1)

/* For reading: a copy of b. */
lent lend_copy(bytes b);

/* For writing: dirty bytes, which valgrind takes for undefined, so that nothing may depend on them. */
lent lend_dirty(size_t len);

/* Checks that the fences are as they were, and lets the test read every lent byte. */
void check_fences(const lent *l);

/* Whether the bytes from `from` on are as they were lent. */
int is_unchanged(const lent *l, size_t from);

/* Whether the first n bytes are defined to valgrind; always so without it. */
int is_defined(const lent *l, size_t n);

void give_back(lent *l);

#endif
