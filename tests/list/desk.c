/* Lists that are written between fences. */
#include "desk.h"

#include "pen.h"

#include <string.h>

enum { AROUND_A_TEXT = 17 }; /* the bytes of a record with one word of the field `f` but for the text */

static pen query;

desk start_desk(size_t room) {
    desk d;
    d.lent = lend_dirty(room);
    gorbihesh_list_start(&d.list, d.lent.at, room);
    return d;
}

void end_desk(desk *d) {
    check_fences(&d->lent);
    give_back(&d->lent);
}

int add_word_record(desk *d, const char *text, size_t length) {
    gorbihesh_list_begin(&d->list);
    gorbihesh_list_word(&d->list, "f", 1, 0, text, length);
    return gorbihesh_list_end(&d->list);
}

int add_record_of(desk *d, size_t bytes) {
    static char text[2 * GORBIHESH_LIST_MOST];
    memset(text, 'a', sizeof text);
    return add_word_record(d, text, bytes - AROUND_A_TEXT);
}

outcome pick_hex(const desk *d, const char *hex) {
    query.len = 0;
    put_hex(&query, hex);
    return pick(all(&query), (bytes){d->list.bytes, d->list.length});
}

void check_count(const desk *d, uint32_t count) {
    CHECK(d->list.count == count);
    outcome o = pick_hex(d, "06 0000");
    CHECK(o.answer.refusal == 0);
    CHECK(o.answer.count == count);
    for (uint32_t i = 0; i < o.answer.count; i++) CHECK(gorbihesh_row(o.bytes, i) == i);
}
