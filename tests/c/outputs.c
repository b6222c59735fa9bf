/* Outputs that are exactly full, one byte short, longer, empty and null. An output one byte short is refusal 18 and
 * stays as it was; calls.c checks that, and that the bytes behind the answer do.
 */
#include "calls.h"
#include "check.h"
#include "pen.h"

#include <string.h>

enum { KEPT_MOST = 70000 };

static pen query, list;
static uint8_t kept[KEPT_MOST];

/* The answer with room for everything, to compare with. */
static gorbihesh_answer keep(outcome o) {
    CHECK(o.answer.refusal == 0 && o.answer.length <= KEPT_MOST);
    memcpy(kept, o.bytes, o.answer.length <= KEPT_MOST ? o.answer.length : 0);
    return o.answer;
}

static int is_kept(outcome o, gorbihesh_answer a) {
    return o.answer.refusal == 0 && o.answer.length == a.length && o.answer.count == a.count &&
           o.answer.rounds == a.rounds && o.answer.place == a.place && memcmp(o.bytes, kept, a.length) == 0;
}

static void text_out(bytes text) {
    size_t room = gorbihesh_parse_room();
    setup s = plain_setup();
    check_about("outputs for the text %.30s", (const char *)text.at);
    gorbihesh_answer a = keep(parse(s, text));
    CHECK(is_kept(parse_in(s, text, a.length, room), a));
    CHECK(is_kept(parse_in(s, text, a.length + 1, room), a));
    CHECK(is_refused(parse_in(s, text, a.length - 1, room), 18));
    CHECK(is_refused(parse_in(s, text, a.length / 2, room), 18));
    CHECK(is_refused(parse_in(s, text, 1, room), 18));
    CHECK(is_refused(parse_in(s, text, 0, room), 18));
    CHECK(is_refused(parse_in(s, text, NULL_LENGTH, room), 18));
}

static void parsing(void) {
    text_out(TEXT(""));
    text_out(TEXT("a"));
    text_out(TEXT("-a"));
    text_out(TEXT("\"red fox\"^2 (a -b)"));
    text_out(TEXT("kind:settings -kind:cache"));
    query.len = 0;
    for (int i = 0; i < 512; i++) put_bytes(&query, TEXT("a "));
    text_out(all(&query));
    query.len = 0;
    for (int i = 0; i < 24; i++) put_bytes(&query, TEXT("-("));
    put_bytes(&query, TEXT("a))))))))))))))))))))))))"));
    text_out(all(&query));
}

static void query_out(const char *what, bytes stored) {
    size_t room = gorbihesh_rewrite_room();
    check_about("outputs for rewriting %s", what);
    gorbihesh_answer a = keep(rewrite(stored));
    CHECK(is_kept(rewrite_in(stored, a.length, room), a));
    CHECK(is_kept(rewrite_in(stored, a.length + 1, room), a));
    CHECK(is_refused(rewrite_in(stored, a.length - 1, room), 18));
    CHECK(is_refused(rewrite_in(stored, a.length / 2, room), 18));
    CHECK(is_refused(rewrite_in(stored, 1, room), 18));
    CHECK(is_refused(rewrite_in(stored, 0, room), 18));
    CHECK(is_refused(rewrite_in(stored, NULL_LENGTH, room), 18));
}

/* Pairs of equal Should clauses: merging takes a clause away and puts a boost around the other. */
static void put_pairs(size_t pairs) {
    query.len = 0;
    put_hex(&query, "13 0002 0000");
    for (size_t i = 0; i < 2 * pairs; i++) {
        put_hex(&query, "21 000B 01 0008 10 0001 66 11 0001");
        put_fill(&query, (uint8_t)(i / 2), 1);
    }
    wrap(&query, 0x03, "");
}

static void rewriting(void) {
    query_out("a leaf", TEXT("\6\0\0"));
    query_out("a phrase of one word", TEXT("\2\0\x0C\x10\0\1f\x12\0\5\0\0\0\0a"));
    put_pairs(1);
    query_out("two equal clauses", all(&query));
    put_pairs(100);
    query_out("a hundred pairs of equal clauses", all(&query));
    put_long_term(&query, 32768);
    query_out("a long term", all(&query));
    /* The answer is longer than the query: a Filter alone becomes a boost of a constant score. */
    query.len = 0;
    put_hex(&query, "06 0000");
    for (int i = 0; i < 21; i++) {
        wrap(&query, 0x23, "");
        wrap(&query, 0x03, "13 0002 0000");
    }
    query_out("filters in filters", all(&query));
}

static void list_out(const char *what, bytes stored, bytes records) {
    size_t room = gorbihesh_select_room();
    check_about("rows for %s", what);
    gorbihesh_answer a = keep(pick(stored, records));
    CHECK(is_kept(pick_in(stored, records, a.length, room), a));
    for (size_t more = 1; more <= 5; more++) CHECK(is_kept(pick_in(stored, records, a.length + more, room), a));
    for (size_t less = 1; less <= 5 && less <= a.length; less++)
        CHECK(is_refused(pick_in(stored, records, a.length - less, room), 18));
    if (a.length == 0) {
        CHECK(is_kept(pick_in(stored, records, NULL_LENGTH, room), a));
        return;
    }
    CHECK(is_refused(pick_in(stored, records, 0, room), 18));
    CHECK(is_refused(pick_in(stored, records, NULL_LENGTH, room), 18));
}

static void selecting(void) {
    bytes every = TEXT("\6\0\0"), nothing = TEXT("\7\0\0");
    list_out("no records", every, NONE);
    list_out("one record", every, TEXT("\x40\0\0"));
    list_out("one record, not picked", nothing, TEXT("\x40\0\0"));
    list.len = 0;
    for (int i = 0; i < 300; i++) put_hex(&list, "40 0000");
    list_out("300 records", every, all(&list));
    list_out("300 records, none picked", nothing, all(&list));
    while (list.len < 65535) put_hex(&list, "40 0000");
    CHECK(pick(every, all(&list)).answer.count == 21845);
}

int main(void) {
    parsing();
    rewriting();
    selecting();
    return check_done("outputs");
}
