/* Runs one selector over the catalogue. */
#include "selector.h"

#include "memory.h"
#include "print.h"

#include <stdlib.h>

static size_t greater(size_t a, size_t b) { return a > b ? a : b; }

/* Rows for the list with the most records; one room, as long as the call that needs most. */
void make_desk(desk *d, const tree *t, const catalogue *c) {
    size_t records = 0;
    for (size_t i = 0; i < c->count; i++) records = greater(records, c->at[i].list.count);
    d->files = t;
    d->lists = c;
    d->parsed_len = d->rewritten_len = d->place = 0;
    d->rows_len = 4 * records;
    d->room_len = greater(gorbihesh_parse_room(), greater(gorbihesh_rewrite_room(), gorbihesh_select_room()));
    d->parsed = must_have(malloc(GORBIHESH_REWRITE_QUERY_MOST));
    d->rewritten = must_have(malloc(GORBIHESH_SELECT_QUERY_MOST));
    d->rows = must_have(malloc(d->rows_len + 1));
    d->room = must_have(malloc(d->room_len + 1));
}

void free_desk(desk *d) {
    free(d->parsed);
    free(d->rewritten);
    free(d->rows);
    free(d->room);
}

void add_pick(picks *p, const tree *t, size_t number) {
    p->at = with_place(p->at, p->count, &p->places, sizeof *p->at);
    p->at[p->count++] = number;
    p->bytes = sum_of(p->bytes, t->at[number].size);
}

void free_picks(picks *p) {
    free(p->at);
    *p = (picks){NULL, 0, 0, 0};
}

uint32_t pick_by(desk *d, const uint8_t *query, size_t length, picks *p) {
    *p = (picks){NULL, 0, 0, 0};
    for (size_t i = 0; i < d->lists->count; i++) {
        const part_list *l = &d->lists->at[i];
        gorbihesh_answer a = gorbihesh_select(query, length, l->list.bytes, l->list.length, d->rows, d->rows_len,
                                              d->room, gorbihesh_select_room());
        if (a.refusal != GORBIHESH_DONE) {
            free_picks(p);
            return a.refusal;
        }
        for (uint32_t row = 0; row < a.count; row++) add_pick(p, d->files, l->first + gorbihesh_row(d->rows, row));
    }
    return GORBIHESH_DONE;
}

uint32_t read_selector(desk *d, const char *field, size_t field_length, const char *text, size_t length) {
    gorbihesh_answer a = parse_selector(field, field_length, text, length, d->parsed, GORBIHESH_REWRITE_QUERY_MOST,
                                        d->room, gorbihesh_parse_room());
    d->parsed_len = a.length;
    d->place = a.place;
    make_texts_small(d->parsed, d->parsed_len);
    return a.refusal;
}

uint32_t run_selector(desk *d, const char *text, size_t length, picks *p) {
    *p = (picks){NULL, 0, 0, 0};
    uint32_t refusal = read_selector(d, default_field, strlen(default_field), text, length);
    if (refusal != GORBIHESH_DONE) return refusal;
    gorbihesh_answer a = gorbihesh_rewrite(d->parsed, d->parsed_len, d->rewritten, GORBIHESH_SELECT_QUERY_MOST, d->room,
                                           gorbihesh_rewrite_room());
    d->rewritten_len = a.length;
    return a.refusal != GORBIHESH_DONE ? a.refusal : pick_by(d, d->rewritten, d->rewritten_len, p);
}

/* "Match nothing" stays so whatever the catalogue holds. */
int picks_none_ever(const desk *d) { return d->rewritten_len > 0 && d->rewritten[0] == GORBIHESH_MATCH_NONE_TAG; }
