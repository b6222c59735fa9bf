/* The worked cases of the build rules, 'Both sides of each line', byte for byte. Field `f`, Or, simple unless said.
 * The cases on both sides of a limit stand in limits.c.
 */
#include "calls.h"
#include "check.h"
#include "pen.h"

#include <string.h>

#define A "01 0008 10 0001 66 11 0001 61"
#define B "01 0008 10 0001 66 11 0001 62"
#define C "01 0008 10 0001 66 11 0001 63"

static setup under(uint8_t operator_, uint8_t analyzer) {
    return (setup){operator_, analyzer, TEXT("f"), NONE};
}

static void stores(setup s, const char *text, const char *hex) {
    check_about("the text %s", text);
    CHECK(is_stored(parse(s, (bytes){text, strlen(text)}), hex));
}

static void refuses(const char *text, uint32_t refusal) {
    check_about("the text %s", text);
    CHECK(is_refused(parse(plain_setup(), (bytes){text, strlen(text)}), refusal));
}

static void texts(void) {
    stores(plain_setup(), "", "07 0000");
    stores(plain_setup(), "a", A);
    stores(plain_setup(), "-a", "03 0013 13 0002 0000 22 000B" A);
    stores(plain_setup(), "wi-fi",
           "03 0023 13 0002 0000 21 000C 01 0009 10 0001 66 11 0002 7769"
           "21 000C 01 0009 10 0001 66 11 0002 6669");
    stores(under(GORBIHESH_OR, GORBIHESH_WHITESPACE), "wi-fi", "01 000C 10 0001 66 11 0005 77692D6669");
    stores(plain_setup(), "a AND b OR c", "03 002F 13 0002 0000 20 000B" A "20 000B" B "21 000B" C);
    stores(plain_setup(), "a OR b AND c", "03 002F 13 0002 0000 21 000B" A "20 000B" B "20 000B" C);
    stores(under(GORBIHESH_AND, GORBIHESH_SIMPLE), "a OR b", "03 0021 13 0002 0000 21 000B" A "21 000B" B);
    stores(under(GORBIHESH_OR, GORBIHESH_WHITESPACE), "a&&b", "01 000B 10 0001 66 11 0004 61262662");
}

static void refusals(void) {
    refuses("1 AND b", 11);
    refuses("\\AND", 11);
    refuses("a^-1", 14);
    refuses("a^2^3", 11);
    refuses("()^x", 13);
    refuses("\"a\\", 5);
}

static void boosts(void) {
    stores(plain_setup(), "a^\\-1", "04 000F BF800000" A);
    stores(plain_setup(), "a^1e+5", "04 000F 47C35000" A);
    stores(plain_setup(), "a^16777217", "04 000F 4B800000" A);
    stores(plain_setup(), "a^16777219", "04 000F 4B800002" A);
    stores(plain_setup(), "a^1e39", "04 000F 7F800000" A);
    stores(plain_setup(), "a^340282356779733661637539395458142568448", "04 000F 7F800000" A);
    stores(plain_setup(), "a^340282356779733661637539395458142568447", "04 000F 7F7FFFFF" A);
    stores(plain_setup(), "a^\\-7.006492321624085354618647916449580e-46", "04 000F 80000000" A);
    stores(plain_setup(), "a^\\-7.006492321624085354618647916449581e-46", "04 000F 80000001" A);
    stores(plain_setup(), "a^nan", "04 000F 7FC00000" A);
    stores(plain_setup(), "a^\\-NaN", "04 000F 7FC00000" A);
}

static bytes stored(const char *hex, pen *p) {
    p->len = 0;
    put_hex(p, hex);
    return all(p);
}

static void rewriting(void) {
    static pen query, list;
    bytes with_a = stored("40 0010 41 000D 10 0001 66 12 0006 00000000 6161"
                          "40 000F 41 000C 10 0001 66 12 0005 00000000 61",
                          &list);
    check_about("one Filter a");
    stored("03 0013 13 0002 0000 23 000B" A, &query);
    CHECK(is_rewritten(rewrite(all(&query)), "04 0012 00000000 05 000B" A, 2));
    check_about("minimum 2, Should a twice");
    stored("03 0021 13 0002 0002 21 000B" A "21 000B" A, &query);
    CHECK(is_rewritten(rewrite(all(&query)), "07 0000", 3));
    CHECK(is_rewritten(rewrite_strictly(all(&query)), "03 0021 13 0002 0002 21 000B" A "21 000B" A, 1));
    CHECK(is_picked(pick(all(&query), with_a), "1"));
    CHECK(is_picked(pick(TEXT("\7\0\0"), with_a), ""));
}

/* The text that the show program is shown with. */
static void shown(void) {
    const setup note = {GORBIHESH_OR, GORBIHESH_SIMPLE, TEXT("note"), NONE};
    static const char *half_a = "04 0012 3F000000 01 000B 10 0004 6E6F7465 11 0001 61";
    static pen query;
    char expected[200] = "03 0035 13 0002 0000 20 0015";
    strcat(strcat(strcat(expected, half_a), "20 0015"), half_a);
    stores(note, "+a^0.5 +a^0.5", expected);
    CHECK(is_rewritten(rewrite(stored(expected, &query)), "01 000B 10 0004 6E6F7465 11 0001 61", 3));
}

#define TWICE_A "04 000F 40000000" A
#define TINY_A "04 000F 33800000" A /* 2^-24: lost when it is added to 1 in 32 bits */

/* 'Shortcuts that lose files': each case tells the rule from the shortcut. The phrase at position 3 is in matching.c. */
static void shortcuts(void) {
    static pen query;
    stores(plain_setup(), "g:a\034b",
           "03 0021 13 0002 0000 21 000B 01 0008 10 0001 67 11 0001 61 21 000B 01 0008 10 0001 67 11 0001 62");
    stores(plain_setup(), "-\034", "07 0000");
    check_about("sums in 64 bits");
    CHECK(is_rewritten(rewrite(stored("03 003D 13 0002 0000 21 000B" A "21 0012" TINY_A "21 0012" TINY_A, &query)),
                       "04 000F 3F800001" A, 3));
    check_about("a Filter with a boost is not the Must");
    CHECK(is_rewritten(rewrite(stored("03 0028 13 0002 0000 20 000B" A "23 0012" TWICE_A, &query)),
                       "03 0028 13 0002 0000 20 000B" A "23 0012" TWICE_A, 1));
    check_about("a Filter that is the base of the Must");
    CHECK(is_rewritten(rewrite(stored("03 0028 13 0002 0000 20 0012" TWICE_A "23 000B" A, &query)), TWICE_A, 3));
}

int main(void) {
    texts();
    refusals();
    boosts();
    rewriting();
    shown();
    shortcuts();
    return check_done("cases");
}
