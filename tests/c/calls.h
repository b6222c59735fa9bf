/* The calls as tests make them: every slice fenced, output and room dirty. Each run checks what holds of
 * every call, whatever its answer: fences and inputs as they were, the room all zeros, the output behind the
 * answer as it was, and the members of the answer that must be 0.
 */
#ifndef CALLS_H
#define CALLS_H

#include "gorbihesh.h"
#include "lend.h"

typedef struct {
    uint8_t operator_, analyzer;
    bytes field, fields;
} setup;

/* Or, simple, the field `f`. */
setup plain_setup(void);

typedef struct {
    gorbihesh_answer answer;
    const uint8_t *bytes; /* the answer's bytes, until the next run */
} outcome;

/* With the output and the room that are always enough. */
outcome parse(setup s, bytes text);
outcome rewrite(bytes query);
outcome rewrite_strictly(bytes query);
outcome pick(bytes query, bytes list);

/* With an output and a room of these lengths; NULL_LENGTH lends a null pointer. */
outcome parse_in(setup s, bytes text, size_t out_len, size_t room_len);
outcome rewrite_in(bytes query, size_t out_len, size_t room_len);
outcome rewrite_strictly_in(bytes query, size_t out_len, size_t room_len);
outcome pick_in(bytes query, bytes list, size_t rows_len, size_t room_len);

/* Enough for every answer. */
enum { OUTPUT = 90000 };

int is_refused(outcome o, uint32_t refusal);
int is_refused_at(outcome o, uint32_t refusal, uint32_t place);

/* The answer's bytes, in hex; spaces part nothing. */
int is_stored(outcome o, const char *hex);
int is_rewritten(outcome o, const char *hex, uint32_t rounds);

/* The numbers of the records picked, in decimal with a space between: "0 2 5". */
int is_picked(outcome o, const char *rows);

/* Which refusals have been given so far. */
int was_given(uint32_t refusal);

#endif
