/* Every refusal number is reached, by each call that gives it; and each fault of a text at its place. */
#include "calls.h"
#include "check.h"
#include "pen.h"

#include <string.h>

static pen query, list;

static void text_refused(uint32_t refusal, uint32_t place, bytes text) {
    check_about("refusal %u of a text at %u", refusal, place);
    CHECK(is_refused_at(parse(plain_setup(), text), refusal, place));
}

static void texts(void) {
    const struct {
        uint32_t refusal, place;
        bytes text;
    } cases[] = {
        {2, 0, TEXT("caf\xC3\xA9")},
        {4, 0, TEXT("\"a b")},
        {4, 3, TEXT("a  \"b\\\"")},
        {5, 1, TEXT("a\\")},
        {5, 2, TEXT("\"a\\")},
        {6, 0, TEXT("[a")},
        {6, 1, TEXT("a]")},
        {6, 0, TEXT("{a")},
        {6, 1, TEXT("a}")},
        {6, 2, TEXT("\\]]")},
        {7, 1, TEXT("a*")},
        {7, 0, TEXT("?a")},
        {7, 5, TEXT("  a\\**")},
        {8, 1, TEXT("a~")},
        {8, 4, TEXT("\\a  ~")},
        {9, 5, TEXT("\"a b\"~")},
        {9, 7, TEXT("\"a b\"  ~")},
        {10, 3, TEXT("a +")},
        {10, 5, TEXT("a +  ")},
        {11, 1, TEXT("a)")},
        {11, 2, TEXT("1 AND b")},
        {12, 2, TEXT("(a")},
        {12, 4, TEXT("(a  ")},
        {13, 2, TEXT("a^x")},
        {13, 5, TEXT("\\a ^ x")},
        {14, 2, TEXT("a^")},
        {14, 3, TEXT("a^ ")},
        {14, 3, TEXT("a^ \"2\"")},
    };
    for (size_t i = 0; i < sizeof cases / sizeof *cases; i++)
        text_refused(cases[i].refusal, cases[i].place, cases[i].text);
}

/* A byte so many times, then more text. */
static bytes filled(uint8_t byte, size_t n, const char *more) {
    query.len = 0;
    put_fill(&query, byte, n);
    put_bytes(&query, (bytes){more, strlen(more)});
    return all(&query);
}

static void long_texts(void) {
    text_refused(1, 0, filled('a', 1025, ""));
    text_refused(15, 0, filled('n', 33, ":a"));
    text_refused(16, 24, filled('(', 25, "a"));
    query.len = 0;
    put_bytes(&query, TEXT("a^"));
    put_fill(&query, '1', 41);
    text_refused(17, 2, all(&query));
    text_refused(7, 1023, filled('a', 1023, "*"));
    text_refused(10, 1024, filled(' ', 1023, "+"));
}

static void setup_refused(const char *what, setup s) {
    check_about("refusal 3: %s", what);
    CHECK(is_refused(parse(s, TEXT("a")), 3));
}

static void setups(void) {
    setup s = plain_setup();
    s.operator_ = 2;
    setup_refused("operator 2", s);
    s = plain_setup();
    s.analyzer = 0;
    setup_refused("analyzer 0", s);
    s.analyzer = GORBIHESH_ENGLISH + 1;
    setup_refused("analyzer 6", s);
    s = plain_setup();
    s.field = TEXT("\x80");
    setup_refused("a field that is not ASCII", s);
    s.field = TEXT("123456789012345678901234567890123");
    setup_refused("a field of 33 bytes", s);
    s = plain_setup();
    s.fields = TEXT("\1");
    setup_refused("an entry of one byte", s);
    s.fields = TEXT("\1\2g");
    setup_refused("a name that breaks off", s);
    s.fields = TEXT("\6\1g");
    setup_refused("an entry with analyzer 6", s);
    s.fields = TEXT("\1\1\x80");
    setup_refused("an entry that is not ASCII", s);
    s.fields = TEXT("\1\1a\1\1a\1\1a\1\1a\1\1a\1\1a\1\1a\1\1a\1\1a");
    setup_refused("a ninth entry", s);
}

static void long_answers(void) {
    check_about("refusal 18");
    CHECK(is_refused(parse_in(plain_setup(), TEXT("a"), 10, gorbihesh_parse_room()), 18));
    CHECK(is_refused(rewrite_in(TEXT("\6\0\0"), 2, gorbihesh_rewrite_room()), 18));
    CHECK(is_refused(rewrite_strictly_in(TEXT("\6\0\0"), 2, gorbihesh_rewrite_strict_room()), 18));
    CHECK(is_refused(pick_in(TEXT("\6\0\0"), TEXT("\x40\0\0"), 3, gorbihesh_select_room()), 18));
}

static void stored_queries(void) {
    check_about("refusal 19");
    put_long_term(&query, 32769);
    CHECK(is_refused(rewrite(all(&query)), 19));
    query.len = 0;
    put_fill(&query, 6, 65536);
    CHECK(is_refused(pick(all(&query), NONE), 19));
    check_about("refusal 20");
    CHECK(is_refused(rewrite(TEXT("\6\0\1")), 20));
    CHECK(is_refused(pick(TEXT("\6\0\1"), NONE), 20));
    check_about("refusal 21");
    put_deep(&query, 65);
    CHECK(is_refused(rewrite(all(&query)), 21));
    put_deep(&query, 193);
    CHECK(is_refused(pick(all(&query), NONE), 21));
}

static void lists(void) {
    check_about("refusal 22");
    list.len = 0;
    put_fill(&list, 0, 65537);
    CHECK(is_refused(pick(TEXT("\6\0\0"), all(&list)), 22));
    check_about("refusal 23");
    CHECK(is_refused(pick(TEXT("\6\0\0"), TEXT("\x40\0\1")), 23));
}

/* A call that needs no room cannot be refused for it. */
static void rooms(void) {
    check_about("refusal 32");
    CHECK(is_refused(parse_in(plain_setup(), TEXT("a"), OUTPUT, gorbihesh_parse_room() - 1), 32));
    CHECK(is_refused(rewrite_in(TEXT("\6\0\0"), OUTPUT, gorbihesh_rewrite_room() - 1), 32));
    CHECK(is_refused(rewrite_strictly_in(TEXT("\6\0\0"), OUTPUT, gorbihesh_rewrite_strict_room() - 1), 32));
    size_t room = gorbihesh_select_room();
    if (room > 0) CHECK(is_refused(pick_in(TEXT("\6\0\0"), NONE, OUTPUT, room - 1), 32));
}

static void every_number(void) {
    for (uint32_t n = 1; n <= 32; n++) {
        check_about("whether %u was given", n);
        CHECK(was_given(n) == (n <= 23 || n == 32));
    }
}

int main(void) {
    texts();
    long_texts();
    setups();
    long_answers();
    stored_queries();
    lists();
    rooms();
    every_number();
    return check_done("refusals");
}
