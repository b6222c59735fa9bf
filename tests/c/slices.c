/* Empty and null slices in every place, and slices that end too soon: every beginning of a text, of a query and of a
 * list is tried, so that a read past the end meets a fence.
 */
#include "calls.h"
#include "check.h"
#include "pen.h"

#include <string.h>

static pen query, list;

static const bytes empties[2] = {{"", 0}, {NULL, 0}};

static void empty_parsing(void) {
    for (int i = 0; i < 8; i++) {
        setup s = {GORBIHESH_OR, GORBIHESH_SIMPLE, empties[i & 1], empties[i >> 1 & 1]};
        check_about("empty slices for parsing, %d", i);
        CHECK(is_stored(parse(s, empties[i >> 2 & 1]), "07 0000"));
        CHECK(is_stored(parse(s, TEXT("a")), "01 0007 10 0000 11 0001 61"));
        CHECK(is_refused(parse_in(s, empties[i >> 2 & 1], NULL_LENGTH, gorbihesh_parse_room()), 18));
        CHECK(is_refused(parse_in(s, empties[i >> 2 & 1], NULL_LENGTH, NULL_LENGTH), 32));
    }
}

static void empty_rewriting(void) {
    for (int i = 0; i < 2; i++) {
        check_about("empty slices for rewriting, %d", i);
        CHECK(is_refused(rewrite(empties[i]), 20));
        CHECK(is_refused(rewrite_in(empties[i], NULL_LENGTH, gorbihesh_rewrite_room()), 20));
        CHECK(is_refused(rewrite_in(empties[i], NULL_LENGTH, NULL_LENGTH), 32));
    }
}

static void empty_selecting(void) {
    size_t room = gorbihesh_select_room();
    for (int i = 0; i < 4; i++) {
        bytes records = empties[i >> 1];
        check_about("empty slices for selecting, %d", i);
        CHECK(is_refused(pick(empties[i & 1], records), 20));
        CHECK(is_picked(pick(TEXT("\6\0\0"), records), ""));
        CHECK(is_picked(pick_in(TEXT("\6\0\0"), records, NULL_LENGTH, room), ""));
        if (room == 0) CHECK(is_picked(pick_in(TEXT("\6\0\0"), records, NULL_LENGTH, NULL_LENGTH), ""));
    }
}

static void text_beginnings(void) {
    static const char text[] = "+a -\"b c\\\" d\"^1.5e+3 (f:x\\:y && !g) NOT wi-fi OR (a AND b)^0.25 || ~ & |";
    setup s = plain_setup();
    s.fields = TEXT("\3\1g\1\4note\2\0");
    for (size_t n = 0; n < sizeof text; n++) {
        check_about("the first %zu bytes of a text", n);
        outcome o = parse(s, (bytes){text, n});
        CHECK(o.answer.refusal != 0 || o.answer.length >= 3);
        CHECK(o.answer.refusal <= 14);
    }
}

static void entry_beginnings(void) {
    static const char fields[] = "\3\1g\1\4note\2\0";
    setup s = plain_setup();
    for (size_t n = 0; n < sizeof fields - 1; n++) {
        int whole = n == 0 || n == 3 || n == 9;
        s.fields = (bytes){fields, n};
        check_about("the first %zu bytes of the entries", n);
        CHECK(parse(s, TEXT("a")).answer.refusal == (whole ? 0 : 3));
    }
}

/* One of everything that a stored query can hold. */
static void put_every_kind(void) {
    query.len = 0;
    put_hex(&query,
            "13 0002 0001"
            "21 000B 01 0008 10 0001 66 11 0001 61"
            "21 0017 02 0014 10 0001 66 12 0005 00000000 61 12 0005 00000001 62"
            "20 000D 05 000A 04 0007 3F000000 06 0000"
            "22 0003 07 0000"
            "23 0015 08 0012 10 0001 66 31 0008 0000000000000001 30 0000"
            "21 001D 09 001A 10 0001 66 32 0008 BFF0000000000000 31 0008 3FF0000000000000");
    wrap(&query, 0x03, "");
}

static void query_beginnings(void) {
    put_every_kind();
    check_about("one of everything");
    CHECK(rewrite(all(&query)).answer.refusal == 0);
    CHECK(pick(all(&query), NONE).answer.refusal == 0);
    for (size_t n = 0; n < query.len; n++) {
        check_about("the first %zu bytes of a query", n);
        CHECK(is_refused(rewrite((bytes){query.at, n}), 20));
        CHECK(is_refused(pick((bytes){query.at, n}, NONE), 20));
    }
    put_hex(&query, "00");
    check_about("a byte behind a query");
    CHECK(is_refused(rewrite(all(&query)), 20));
    CHECK(is_refused(pick(all(&query), NONE), 20));
}

static void list_beginnings(void) {
    list.len = 0;
    put_hex(&list,
            "40 000F 41 000C 10 0001 66 12 0005 00000000 61"
            "40 0000"
            "40 0024 44 000F 10 0001 66 14 0008 0000000000000001 45 000F 10 0001 66 14 0008 3FF0000000000000");
    for (size_t n = 0; n <= list.len; n++) {
        const char *rows = n == 0 ? "" : n == 18 ? "0" : n == 21 ? "0 1" : n == list.len ? "0 1 2" : NULL;
        check_about("the first %zu bytes of a list", n);
        outcome o = pick(TEXT("\6\0\0"), (bytes){list.at, n});
        CHECK(rows == NULL ? is_refused(o, 23) : is_picked(o, rows));
    }
}

int main(void) {
    empty_parsing();
    empty_rewriting();
    empty_selecting();
    text_beginnings();
    entry_beginnings();
    query_beginnings();
    list_beginnings();
    return check_done("slices");
}
