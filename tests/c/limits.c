/* Both sides of each limit: what passes at the limit is refused one past it. */
#include "calls.h"
#include "check.h"
#include "pen.h"

#include <string.h>

static pen made, list;

/* `before`, a byte so many times, `behind`. */
static bytes repeated(const char *before, char byte, size_t n, const char *behind) {
    made.len = 0;
    put_bytes(&made, (bytes){before, strlen(before)});
    put_fill(&made, (uint8_t)byte, n);
    put_bytes(&made, (bytes){behind, strlen(behind)});
    return all(&made);
}

static int passes(outcome o) { return o.answer.refusal == 0 && o.answer.length > 0; }

static void texts(void) {
    check_about("1,024 bytes of text");
    CHECK(passes(parse(plain_setup(), repeated("", 'a', 1024, ""))));
    CHECK(is_refused(parse(plain_setup(), repeated("", 'a', 1025, "")), 1));
    CHECK(is_stored(parse(plain_setup(), repeated("", ' ', 1024, "")), "07 0000"));
    CHECK(is_refused(parse(plain_setup(), repeated("", ' ', 1025, "")), 1));
    check_about("bytes of text below 0x80");
    CHECK(is_stored(parse(plain_setup(), TEXT("\x7F")), "07 0000"));
    CHECK(is_stored(parse(plain_setup(), TEXT("\0")), "07 0000"));
    CHECK(is_refused(parse(plain_setup(), TEXT("\x80")), 2));
    CHECK(is_refused(parse(plain_setup(), TEXT("\xFF")), 2));
}

static void names(void) {
    check_about("32 bytes of a field name");
    CHECK(passes(parse(plain_setup(), repeated("", 'n', 32, ":a"))));
    CHECK(is_refused(parse(plain_setup(), repeated("", 'n', 33, ":a")), 15));
    setup s = plain_setup();
    s.field = repeated("", 'n', 32, "");
    CHECK(passes(parse(s, TEXT("a"))));
    s.field = repeated("", 'n', 33, "");
    CHECK(is_refused(parse(s, TEXT("a")), 3));
    check_about("a field name of no bytes");
    s.field = NONE;
    CHECK(is_stored(parse(s, TEXT("a")), "01 0007 10 0000 11 0001 61"));
}

static void entries(void) {
    check_about("eight entries");
    setup s = plain_setup();
    s.fields = TEXT("\1\1a\1\1b\1\1c\1\1d\1\1e\1\1f\1\1g\3\1h");
    CHECK(is_stored(parse(s, TEXT("h:\"A 1\"")), "01 000A 10 0001 68 11 0003 412031"));
    s.fields = TEXT("\1\1a\1\1b\1\1c\1\1d\1\1e\1\1f\1\1g\3\1h\1\1i");
    CHECK(is_refused(parse(s, TEXT("h:\"A 1\"")), 3));
    check_about("a later entry replaces the earlier, and both count");
    s.fields = TEXT("\1\1f\2\1f\3\1f");
    CHECK(is_stored(parse(s, TEXT("A-1")), "01 000A 10 0001 66 11 0003 412D31"));
    s.fields = TEXT("\1\1f\1\1f\1\1f\1\1f\1\1f\1\1f\1\1f\3\1f");
    CHECK(is_stored(parse(s, TEXT("A-1")), "01 000A 10 0001 66 11 0003 412D31"));
    s.fields = TEXT("\1\1f\1\1f\1\1f\1\1f\1\1f\1\1f\1\1f\1\1f\3\1f");
    CHECK(is_refused(parse(s, TEXT("A-1")), 3));
    check_about("an entry with 32 and 33 bytes of name");
    s.fields = repeated("\3\x20", 'n', 32, "");
    CHECK(passes(parse(s, TEXT("a"))));
    s.fields = repeated("\3\x21", 'n', 33, "");
    CHECK(is_refused(parse(s, TEXT("a")), 3));
}

static void brackets(void) {
    static const char *shut = "a))))))))))))))))))))))))";
    check_about("24 brackets");
    CHECK(is_stored(parse(plain_setup(), repeated("", '(', 24, shut)), "01 0008 10 0001 66 11 0001 61"));
    CHECK(is_refused(parse(plain_setup(), repeated("", '(', 25, shut)), 16));
}

static void numerals(void) {
    check_about("40 bytes of a numeral");
    CHECK(is_stored(parse(plain_setup(), repeated("a^", '0', 39, "2")),
                    "04 000F 40000000 01 0008 10 0001 66 11 0001 61"));
    CHECK(is_refused(parse(plain_setup(), repeated("a^", '0', 40, "2")), 17));
    CHECK(is_refused(parse(plain_setup(), repeated("a^", 'x', 40, "")), 13));
    CHECK(is_refused(parse(plain_setup(), repeated("a^", 'x', 41, "")), 17));
}

static void rewriter(void) {
    check_about("32,768 bytes of stored query");
    put_long_term(&made, 32768);
    outcome o = rewrite(all(&made));
    CHECK(o.answer.rounds == 1 && o.answer.length == made.len && memcmp(o.bytes, made.at, made.len) == 0);
    put_long_term(&made, 32769);
    CHECK(is_refused(rewrite(all(&made)), 19));
    check_about("depth 64");
    put_deep(&made, 64);
    CHECK(passes(rewrite(all(&made))));
    put_deep(&made, 65);
    CHECK(is_refused(rewrite(all(&made)), 21));
}

/* Every record of one query stands in one clause of the next: the deepest shape that parsing makes. */
static void put_deep_boolean(size_t depth) {
    made.len = 0;
    put_hex(&made, "01 0008 10 0001 66 11 0001 61");
    for (size_t i = 1; i < depth; i++) {
        wrap(&made, i % 2 ? 0x20 : 0x21, "");
        wrap(&made, 0x03, "13 0002 0000");
    }
}

static void selection(void) {
    bytes with_a = TEXT("\x40\0\x0F\x41\0\x0C\x10\0\1f\x12\0\5\0\0\0\0a");
    check_about("65,535 bytes of stored query");
    put_long_term(&made, 65535);
    CHECK(is_picked(pick(all(&made), with_a), ""));
    put_bytes(&made, TEXT("a"));
    CHECK(is_refused(pick(all(&made), with_a), 19));
    check_about("depth 192");
    put_deep(&made, 192);
    CHECK(is_picked(pick(all(&made), with_a), "0"));
    put_deep(&made, 193);
    CHECK(is_refused(pick(all(&made), with_a), 21));
    put_deep_boolean(192);
    CHECK(is_picked(pick(all(&made), with_a), "0"));
    put_deep_boolean(193);
    CHECK(is_refused(pick(all(&made), with_a), 21));
    put_deep_boolean(64);
    CHECK(is_rewritten(rewrite(all(&made)), "01 0008 10 0001 66 11 0001 61", 2));
    put_deep_boolean(65);
    CHECK(is_refused(rewrite(all(&made)), 21));
}

/* A list of n bytes: first a record of 16 bytes and a text, then records with nothing in them. */
static void put_list(size_t n) {
    made.len = 0;
    put_fill(&made, 'a', (n - 16) % 3);
    wrap(&made, 0x12, "00000000");
    wrap(&made, 0x41, "10 0000");
    wrap(&made, 0x40, "");
    while (made.len < n) put_hex(&made, "40 0000");
}

static void lists(void) {
    check_about("65,536 bytes of list");
    put_list(65536);
    list = made;
    outcome o = pick(TEXT("\6\0\0"), all(&list));
    CHECK(o.answer.refusal == 0 && o.answer.count > 21000);
    CHECK(is_picked(pick(TEXT("\7\0\0"), all(&list)), ""));
    put_list(65537);
    CHECK(is_refused(pick(TEXT("\6\0\0"), all(&made)), 22));
    check_about("one record of 65,536 bytes");
    list.len = 0;
    put_fill(&list, 'a', 65536 - 16);
    wrap(&list, 0x12, "00000000");
    wrap(&list, 0x41, "10 0000");
    wrap(&list, 0x40, "");
    CHECK(list.len == 65536);
    CHECK(is_picked(pick(TEXT("\6\0\0"), all(&list)), "0"));
}

int main(void) {
    texts();
    names();
    entries();
    brackets();
    numerals();
    rewriter();
    selection();
    lists();
    return check_done("limits");
}
