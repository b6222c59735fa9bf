/* Stored queries as gorbihesh_parse writes them: their parts, their texts in small letters, and as text. */
#ifndef QUERY_H
#define QUERY_H

#include <stddef.h>
#include <stdint.h>
#include <stdio.h>

/* A tag, a length of two bytes and a body. */
typedef struct {
    const uint8_t *at;
    size_t length; /* with the header */
    int tag; /* enum gorbihesh_tag */
    const uint8_t *body, *end;
} part;

part part_at(const uint8_t *at);

/* The query inside a boost, or the query itself. */
part without_boost(part query);

/* A Boolean's first clause; each next one is part_at(clause.end). */
part first_clause(part boolean);
part query_of(part clause);

/* A word of a phrase: its text goes up to its end. */
uint32_t position_of(part word);
const uint8_t *text_of(part word);

/* How many clauses of a kind the Boolean has. */
size_t count_clauses(part boolean, int kind);

/* The one rule for capitals, on the side of what is typed: every text in small letters. Operators and field names are
 * read by then. No length changes.
 */
void make_texts_small(uint8_t *query, size_t length);

/* As a selector that reads the same: `+kind:settings -(path:old path:bak)`. As a clause of another, a Boolean is in
 * brackets.
 */
void print_query(FILE *to, part query);
void print_clause(FILE *to, part query);

#endif
