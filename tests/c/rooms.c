/* Working room: dirty before, all zeros after, whatever its length and whatever the answer. calls.c checks the zeros
 * at every run; here stand the lengths. None of the answers may depend on a room that is long enough.
 */
#include "calls.h"
#include "check.h"
#include "pen.h"

#include <string.h>

static pen query, list;

/* Lengths to try around a call's number: what it is refused with, then what it takes. */
enum { SHORT = 5, LONG = 5 };

static size_t short_room(size_t number, int i) {
    const size_t rooms[SHORT] = {NULL_LENGTH, 0, 1, number / 2, number - 1};
    return rooms[i];
}

static size_t long_room(size_t number, int i) {
    const size_t rooms[LONG] = {number, number + 1, number + 15, number + 4096, 2 * number + 100001};
    return rooms[i];
}

static int is_same(outcome o, gorbihesh_answer a) {
    return o.answer.refusal == a.refusal && o.answer.length == a.length && o.answer.count == a.count &&
           o.answer.rounds == a.rounds && o.answer.place == a.place;
}

static void text_in_rooms(bytes text, size_t out_len, uint32_t refusal) {
    size_t number = gorbihesh_parse_room();
    check_about("rooms for the text %.30s", (const char *)text.at);
    gorbihesh_answer a = parse_in(plain_setup(), text, out_len, number).answer;
    CHECK(a.refusal == refusal);
    for (int i = 0; i < SHORT; i++) CHECK(is_refused(parse_in(plain_setup(), text, out_len, short_room(number, i)), 32));
    for (int i = 0; i < LONG; i++) CHECK(is_same(parse_in(plain_setup(), text, out_len, long_room(number, i)), a));
}

static void parsing(void) {
    text_in_rooms(TEXT("kind:settings -kind:cache \"red fox\"^2.5 (a OR b)"), OUTPUT, 0);
    text_in_rooms(TEXT(""), OUTPUT, 0);
    text_in_rooms(TEXT("a b c \""), OUTPUT, 4);
    text_in_rooms(TEXT("a b c)"), OUTPUT, 11);
    text_in_rooms(TEXT("(a b c^1234567890.5 d"), OUTPUT, 12);
    text_in_rooms(TEXT("a\x80"), OUTPUT, 2);
    text_in_rooms(TEXT("a b c"), 5, 18);
    query.len = 0;
    put_fill(&query, ' ', 1025);
    text_in_rooms(all(&query), OUTPUT, 1);
    while (query.len > 1024) query.len--;
    for (size_t i = 0; i < query.len; i += 2) query.at[i] = 'a';
    text_in_rooms(all(&query), OUTPUT, 0);
    setup bad = plain_setup();
    bad.analyzer = 9;
    check_about("rooms under a bad setup");
    for (int i = 0; i < LONG; i++)
        CHECK(is_refused(parse_in(bad, TEXT("a"), OUTPUT, long_room(gorbihesh_parse_room(), i)), 3));
}

static void query_in_rooms(const char *what, bytes stored, size_t out_len, uint32_t refusal) {
    size_t number = gorbihesh_rewrite_room();
    check_about("rooms for rewriting %s", what);
    gorbihesh_answer a = rewrite_in(stored, out_len, number).answer;
    CHECK(a.refusal == refusal);
    for (int i = 0; i < SHORT; i++) CHECK(is_refused(rewrite_in(stored, out_len, short_room(number, i)), 32));
    for (int i = 0; i < LONG; i++) CHECK(is_same(rewrite_in(stored, out_len, long_room(number, i)), a));
}

/* A Boolean of 1,000 Should clauses, half of them twice. */
static void put_many_clauses(void) {
    query.len = 0;
    put_hex(&query, "13 0002 0000");
    for (unsigned i = 0; i < 1000; i++) {
        put_hex(&query, "21 000D 01 000A 10 0001 66 11 0003");
        put_fill(&query, (uint8_t)('a' + i % 500 / 25), 1);
        put_fill(&query, (uint8_t)('a' + i % 25), 2);
    }
    wrap(&query, 0x03, "");
}

static void rewriting(void) {
    query_in_rooms("a leaf", TEXT("\6\0\0"), OUTPUT, 0);
    put_deep(&query, 64);
    query_in_rooms("a deep query", all(&query), OUTPUT, 0);
    put_deep(&query, 65);
    query_in_rooms("too deep a query", all(&query), OUTPUT, 21);
    put_many_clauses();
    query_in_rooms("many clauses", all(&query), OUTPUT, 0);
    query_in_rooms("many clauses, a short output", all(&query), 1000, 18);
    query.at[query.len - 1] = 0x80;
    query_in_rooms("a last byte that is not ASCII", all(&query), OUTPUT, 20);
    put_long_term(&query, 32768);
    query_in_rooms("a long query", all(&query), OUTPUT, 0);
    put_long_term(&query, 32769);
    query_in_rooms("too long a query", all(&query), OUTPUT, 19);
}

static void list_in_rooms(const char *what, bytes stored, bytes records, size_t rows_len, uint32_t refusal) {
    size_t number = gorbihesh_select_room();
    check_about("rooms for selecting, %s", what);
    gorbihesh_answer a = pick_in(stored, records, rows_len, number).answer;
    CHECK(a.refusal == refusal);
    for (int i = 0; number > 0 && i < SHORT; i++)
        CHECK(is_refused(pick_in(stored, records, rows_len, short_room(number, i)), 32));
    for (int i = 0; i < LONG; i++) CHECK(is_same(pick_in(stored, records, rows_len, long_room(number, i)), a));
}

static void selecting(void) {
    bytes every = TEXT("\6\0\0"), records = TEXT("\x40\0\0\x40\0\0\x40\0\0");
    list_in_rooms("three records", every, records, OUTPUT, 0);
    list_in_rooms("no records", every, NONE, OUTPUT, 0);
    list_in_rooms("a short row", every, records, 11, 18);
    list_in_rooms("a bad query", TEXT("\6\0"), records, OUTPUT, 20);
    list_in_rooms("a bad list", every, TEXT("\x40\0\0\x40"), OUTPUT, 23);
    list.len = 0;
    put_fill(&list, 0x40, 65537);
    list_in_rooms("a long list", every, all(&list), OUTPUT, 22);
    put_deep(&query, 193);
    list_in_rooms("a deep query", all(&query), records, OUTPUT, 21);
}

int main(void) {
    parsing();
    rewriting();
    selecting();
    return check_done("rooms");
}
