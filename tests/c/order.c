/* Which refusal is given where several could be. */
#include "calls.h"
#include "check.h"
#include "pen.h"

#include <string.h>

static pen made, list;

static bytes hex(const char *digits) {
    made.len = 0;
    put_hex(&made, digits);
    return all(&made);
}

/* `digits` inside so many ConstantScores. */
static bytes inside(size_t records, const char *digits) {
    hex(digits);
    for (size_t i = 0; i < records; i++) wrap(&made, 0x05, "");
    return all(&made);
}

/* ---- parsing: 32, 3, 1, 2, lexing, parsing, 18 */

static void text_gives(uint32_t refusal, bytes text) {
    check_about("the text %.*s", (int)(text.len < 60 ? text.len : 60), (const char *)text.at);
    CHECK(is_refused(parse_in(plain_setup(), text, 0, gorbihesh_parse_room()), refusal));
    CHECK(is_refused(parse_in(plain_setup(), text, 0, gorbihesh_parse_room() - 1), 32));
    setup bad = plain_setup();
    bad.operator_ = 2;
    CHECK(is_refused(parse_in(bad, text, 0, gorbihesh_parse_room()), 3));
    CHECK(is_refused(parse_in(bad, text, 0, gorbihesh_parse_room() - 1), 32));
}

static void long_before_ascii(void) {
    made.len = 0;
    put_fill(&made, 0x80, 1025);
    text_gives(1, all(&made));
    made.len = 0;
    put_fill(&made, 'a', 1024);
    put_hex(&made, "80");
    text_gives(1, all(&made));
    made.len = 0;
    put_fill(&made, '"', 1024);
    made.at[1023] = 0x80;
    text_gives(2, all(&made));
}

static void lexing_first(void) {
    text_gives(2, TEXT("\"\x80"));
    text_gives(2, TEXT("[ \x80"));
    text_gives(5, TEXT("\"a\\"));
    text_gives(4, TEXT("a) \""));
    text_gives(5, TEXT("a) \\"));
    text_gives(6, TEXT("a) ["));
    text_gives(7, TEXT("a) *"));
    text_gives(6, TEXT("[ * \""));
    text_gives(7, TEXT("* [ \""));
    text_gives(4, TEXT("\" * ["));
    text_gives(7, TEXT("a~ b* ["));
}

static void parsing_in_turn(void) {
    text_gives(8, TEXT("a~ \"b\"~"));
    text_gives(9, TEXT("\"b\"~ a~"));
    text_gives(11, TEXT("a) a^x"));
    text_gives(13, TEXT("a^x a)"));
    text_gives(14, TEXT("a^( )"));
    text_gives(12, TEXT("(a (b)"));
    text_gives(10, TEXT("(a -"));
    text_gives(11, TEXT("AND"));
    text_gives(18, TEXT("a"));
}

static void limits_in_turn(void) {
    text_gives(17, TEXT("a^xxxxxxxxxxxxxxxxxxxxxxxxxxxxxxxxxxxxxxxxx"));
    text_gives(13, TEXT("a^xxxxxxxxxxxxxxxxxxxxxxxxxxxxxxxxxxxxxxxx"));
    text_gives(15, TEXT("nnnnnnnnnnnnnnnnnnnnnnnnnnnnnnnnn:)"));
    text_gives(15, TEXT("nnnnnnnnnnnnnnnnnnnnnnnnnnnnnnnnn:"));
    text_gives(8, TEXT("nnnnnnnnnnnnnnnnnnnnnnnnnnnnnnnnn~:"));
    text_gives(16, TEXT("((((((((((((((((((((((((("));
    text_gives(12, TEXT("(((((((((((((((((((((((("));
    text_gives(10, TEXT("((((((((((((((((((((((((+"));
    text_gives(16, TEXT("((((((((((((((((((((((((+("));
}

/* ---- rewriting, in either way: 32, 19, then 20 and 21 in reading order, 18 */

static void query_gives(const char *what, uint32_t refusal, bytes query) {
    check_about("rewriting, %s", what);
    CHECK(is_refused(rewrite_in(query, 0, gorbihesh_rewrite_room()), refusal));
    CHECK(is_refused(rewrite_in(query, 0, gorbihesh_rewrite_room() - 1), 32));
    CHECK(is_refused(rewrite_strictly_in(query, 0, gorbihesh_rewrite_strict_room()), refusal));
    CHECK(is_refused(rewrite_strictly_in(query, 0, gorbihesh_rewrite_strict_room() - 1), 32));
}

static void long_queries(void) {
    made.len = 0;
    put_fill(&made, 0xFF, 32769);
    query_gives("long and malformed", 19, all(&made));
    put_deep(&made, 193);
    size_t deep = made.len;
    put_fill(&made, 0, 32769 - deep);
    query_gives("long and deep", 19, all(&made));
}

static void one_header(void) {
    query_gives("the 64th record is the last", 18, inside(63, "06 0000"));
    query_gives("a 65th record", 21, inside(64, "06 0000"));
    query_gives("a 65th with a tag that is none", 20, inside(64, "0A 0000"));
    query_gives("a 65th with tag 0", 20, inside(64, "00 0000"));
    query_gives("a 65th with tag 10", 20, inside(64, "10 0000"));
    query_gives("a 65th that is too long", 20, inside(64, "06 0001"));
    query_gives("a 65th of two bytes", 20, inside(64, "06 00"));
    query_gives("a 65th of no bytes", 20, inside(64, ""));
    query_gives("a 65th with a bad body", 21, inside(64, "06 0001 00"));
    query_gives("a 65th and a byte behind it", 21, inside(64, "06 0000 00"));
    query_gives("a 65th of another kind", 21, inside(64, "01 0000"));
}

/* Two clauses, the first with `first` in it, the second with 64 records one in another. */
static bytes two_clauses(const char *first) {
    static pen deep;
    inside(63, "06 0000");
    wrap(&made, 0x20, "");
    deep = made;
    hex("13 0002 0000");
    put_hex(&made, first);
    put_bytes(&made, all(&deep));
    wrap(&made, 0x03, "");
    return all(&made);
}

static void reading_order(void) {
    query_gives("a sound clause, then a deep one", 21, two_clauses("20 0003 06 0000"));
    query_gives("a bad clause, then a deep one", 20, two_clauses("20 0003 0A 0000"));
    query_gives("a leftover, then a deep one", 20, two_clauses("20 0004 06 0000 00"));
    query_gives("a bad kind, then a deep one", 20, two_clauses("24 0003 06 0000"));
    query_gives("a clause of no bytes, then a deep one", 20, two_clauses("20 0000"));
    inside(64, "06 0000");
    put_hex(&made, "00");
    query_gives("a deep one, and a byte behind it all", 21, all(&made));
    inside(64, "06 0000");
    put_hex(&made, "00");
    wrap(&made, 0x21, "");
    wrap(&made, 0x03, "13 0002 0000");
    query_gives("a deep one, and a byte behind it in its clause", 21, all(&made));
    inside(64, "06 0000");
    wrap(&made, 0x04, "7FC00001");
    query_gives("a bad boost, then a deep one", 20, all(&made));
    inside(64, "06 0000");
    wrap(&made, 0x03, "13 0003 000000 21 0000");
    query_gives("a bad minimum, then a deep one", 20, all(&made));
}

/* ---- selection: 32, 19, 20, 21, 22, 23, 18 */

static void pick_gives(const char *what, uint32_t refusal, bytes query, bytes records) {
    check_about("selection, %s", what);
    size_t room = gorbihesh_select_room();
    CHECK(is_refused(pick_in(query, records, 0, room), refusal));
    if (room > 0) CHECK(is_refused(pick_in(query, records, 0, room - 1), 32));
}

static void queries_before_lists(bytes records) {
    made.len = 0;
    put_fill(&made, 0xFF, 65536);
    pick_gives("a long query", 19, all(&made), records);
    pick_gives("a malformed query", 20, TEXT("\6\0"), records);
    pick_gives("an empty query", 20, NONE, records);
    pick_gives("a deep query", 21, inside(192, "06 0000"), records);
    pick_gives("a 193rd record with a tag that is none", 20, inside(192, "0A 0000"), records);
    pick_gives("a 193rd record with a bad body", 21, inside(192, "07 0001 00"), records);
}

static void selection(void) {
    bytes every = TEXT("\6\0\0"), bad_record = TEXT("\x40\0\0\x40\0\0\x40\0\1"), good = TEXT("\x40\0\0");
    list.len = 0;
    put_fill(&list, 0xFF, 65537);
    queries_before_lists(all(&list));
    queries_before_lists(bad_record);
    queries_before_lists(good);
    queries_before_lists(NONE);
    pick_gives("a long malformed list", 22, every, all(&list));
    list.len = 0;
    while (list.len < 65537) put_hex(&list, "40 0000");
    pick_gives("a long sound list", 22, every, all(&list));
    pick_gives("two sound records and a bad one", 23, every, bad_record);
    pick_gives("a row for no record", 18, every, good);
    pick_gives("a bad list that nothing matches", 23, TEXT("\7\0\0"), bad_record);
}

int main(void) {
    long_before_ascii();
    lexing_first();
    parsing_in_turn();
    limits_in_turn();
    long_queries();
    one_header();
    reading_order();
    selection();
    return check_done("order");
}
