/* Runs one selector over the catalogue: parse, small letters, rewrite, and select from each list. */
#ifndef SELECTOR_H
#define SELECTOR_H

#include "catalogue.h"
#include "query.h"

/* Files of the tree by their numbers, rising, and their bytes. */
typedef struct {
    size_t *at;
    size_t count, places;
    uint64_t bytes;
} picks;

/* Buffers that serve every selector, as a scheduler lends them, and what they are run on. */
typedef struct {
    const tree *files;
    const catalogue *lists;
    uint8_t *parsed, *rewritten, *rows, *room;
    size_t parsed_len, rewritten_len; /* what the last selector is read and rewritten as */
    size_t place;                     /* where the fault of the last selector is, if it has one */
    size_t rows_len, room_len;
} desk;

void make_desk(desk *d, const tree *t, const catalogue *c);
void free_desk(desk *d);

/* Each answers a refusal, or 0. Reads a selector into `parsed`, with its texts in small letters; clauses that name no
 * field are in this one.
 */
uint32_t read_selector(desk *d, const char *field, size_t field_length, const char *text, size_t length);

/* Reads a selector and rewrites it, and gathers the files that it picks. A refused one picks none. */
uint32_t run_selector(desk *d, const char *text, size_t length, picks *p);

/* The files that a stored query picks. */
uint32_t pick_by(desk *d, const uint8_t *query, size_t length, picks *p);

/* Whether the selector that was run could not pick any file whatever. */
int picks_none_ever(const desk *d);

void add_pick(picks *p, const tree *t, size_t number);
void free_picks(picks *p);

#endif
