/* Writes stored bytes: queries and lists for the tests. */
#ifndef PEN_H
#define PEN_H

#include "lend.h"

enum { PEN_MOST = 100000 };

typedef struct {
    uint8_t at[PEN_MOST];
    size_t len;
} pen;

/* Behind what is written. */
void put_hex(pen *p, const char *hex); /* spaces part nothing */
void put_bytes(pen *p, bytes b);
void put_fill(pen *p, uint8_t byte, size_t n);

/* Around what is written, which becomes the body of a part; a prefix comes first in this body. */
void wrap(pen *p, uint8_t tag, const char *prefix_hex);

/* What is written. */
bytes all(const pen *p);

/* MatchAll within so many query records in all, each outer one a ConstantScore. */
void put_deep(pen *p, size_t depth);

/* A term of the field `f` whose stored form has n bytes, 10 or more. */
void put_long_term(pen *p, size_t n);

#endif
