/* The strict rewriting: cases by hand beside the other rewriting, and what the header promises of rooms, outputs, slices and
 * limits. What a case picks, by the query and by the result, is counted out by hand.
 */
#include "calls.h"
#include "check.h"
#include "pen.h"

#include <string.h>

static pen query, list, result;

static bytes hex(pen *p, const char *digits) {
    p->len = 0;
    put_hex(p, digits);
    return all(p);
}

#define A "01 0008 10 0001 66 11 0001 61"
#define B "01 0008 10 0001 66 11 0001 62"
#define C "01 0008 10 0001 66 11 0001 63"
#define SHOULD_A "21 000B" A
#define SHOULD_B "21 000B" B
#define TWICE_A "04 000F 40000000" A
#define NOTHING "07 0000"

/* Records with a; with a and b; with b; with c; with nothing. */
static bytes records(void) {
    return hex(&list, "40 000F 41 000C 10 0001 66 12 0005 00000000 61"
                      "40 001E 41 000C 10 0001 66 12 0005 00000000 61 41 000C 10 0001 66 12 0005 00000001 62"
                      "40 000F 41 000C 10 0001 66 12 0005 00000000 62"
                      "40 000F 41 000C 10 0001 66 12 0005 00000000 63"
                      "40 0000");
}

typedef struct {
    const char *hex;
    uint32_t rounds;
} rewritten;

/* What is made of a query strictly and otherwise, and what the query picks, and so the strict result. */
static void makes(const char *what, const char *digits, rewritten strict, rewritten other, const char *rows) {
    check_about("strictly: %s", what);
    CHECK(is_rewritten(rewrite_strictly(hex(&query, digits)), strict.hex, strict.rounds));
    CHECK(is_rewritten(rewrite(all(&query)), other.hex, other.rounds));
    CHECK(is_picked(pick(all(&query), records()), rows));
    CHECK(is_picked(pick(hex(&result, strict.hex), records()), rows));
    outcome again = rewrite_strictly(all(&result));
    CHECK(is_rewritten(again, strict.hex, 1));
}

static void larger_minimums(void) {
    static const char *two_a = "03 0021 13 0002 0002" SHOULD_A SHOULD_A;
    static const char *two_a_b = "03 002F 13 0002 0002" SHOULD_A SHOULD_A SHOULD_B;
    static const char *one_a_b = "03 0021 13 0002 0002" SHOULD_A SHOULD_B;
    static const char *three = "03 002F 13 0002 0003" SHOULD_A SHOULD_A SHOULD_B;
    makes("minimum 2, Should a twice", two_a, (rewritten){two_a, 1}, (rewritten){NOTHING, 3}, "0 1");
    makes("minimum 2, Should a twice and b", two_a_b, (rewritten){two_a_b, 1}, (rewritten){one_a_b, 2}, "0 1");
    makes("minimum 3, MatchNone between", "03 0035 13 0002 0003" SHOULD_A "21 0003" NOTHING SHOULD_A SHOULD_B,
          (rewritten){three, 2}, (rewritten){NOTHING, 3}, "1");
    makes("minimum 3, too few without MatchNone", "03 0027 13 0002 0003" SHOULD_A "21 0003" NOTHING SHOULD_A,
          (rewritten){NOTHING, 2}, (rewritten){NOTHING, 2}, "");
    makes("minimum 65,535", "03 0021 13 0002 FFFF" SHOULD_A SHOULD_A, (rewritten){NOTHING, 2}, (rewritten){NOTHING, 2}, "");
    static const char *boosted = "03 0028 13 0002 0002 21 0012" TWICE_A SHOULD_A;
    makes("minimum 2, a boost is not summed", boosted, (rewritten){boosted, 1}, (rewritten){boosted, 1}, "0 1");
}

/* Only Should clauses are kept; all other kinds merge as ever. */
static void other_kinds(void) {
    makes("minimum 2, Must twice", "03 003D 13 0002 0002 20 000B" A "20 000B" A SHOULD_B SHOULD_B,
          (rewritten){"03 0036 13 0002 0002 20 0012" TWICE_A SHOULD_B SHOULD_B, 2}, (rewritten){NOTHING, 3}, "1");
    makes("minimum 2, Filter and MustNot twice",
          "03 0059 13 0002 0002 23 000B" A "23 000B" A "22 000B" C "22 000B" C SHOULD_B SHOULD_B,
          (rewritten){"03 003D 13 0002 0002 23 000B" A "22 000B" C SHOULD_B SHOULD_B, 2}, (rewritten){NOTHING, 3}, "1");
    makes("minimum 2, a Filter that is the base of a Must", "03 003D 13 0002 0002 20 000B" A "23 000B" A SHOULD_B SHOULD_B,
          (rewritten){"03 002F 13 0002 0002 20 000B" A SHOULD_B SHOULD_B, 2}, (rewritten){NOTHING, 3}, "1");
}

/* Where no minimum is above 1 both are one. */
static void small_minimums(void) {
    rewritten sum = {TWICE_A, 3};
    makes("minimum 0, Should a twice", "03 0021 13 0002 0000" SHOULD_A SHOULD_A, sum, sum, "0 1");
    makes("minimum 1, Should a twice", "03 0021 13 0002 0001" SHOULD_A SHOULD_A, sum, sum, "0 1");
    rewritten filter = {"04 0012 00000000 05 000B" A, 2};
    makes("one Filter a", "03 0013 13 0002 0000 23 000B" A, filter, filter, "0 1");
}

/* ---- rooms, outputs and slices */

static void in_rooms(const char *what, bytes stored, size_t out_len, uint32_t refusal) {
    size_t number = gorbihesh_rewrite_strict_room();
    const size_t too_short[] = {NULL_LENGTH, 0, 1, number / 2, number - 1};
    const size_t enough[] = {number + 1, number + 15, number + 4096, 2 * number + 100001};
    check_about("rooms for strict rewriting, %s", what);
    gorbihesh_answer a = rewrite_strictly_in(stored, out_len, number).answer;
    CHECK(a.refusal == refusal);
    for (size_t i = 0; i < sizeof too_short / sizeof *too_short; i++)
        CHECK(is_refused(rewrite_strictly_in(stored, out_len, too_short[i]), 32));
    for (size_t i = 0; i < sizeof enough / sizeof *enough; i++) {
        gorbihesh_answer b = rewrite_strictly_in(stored, out_len, enough[i]).answer;
        CHECK(b.refusal == a.refusal && b.length == a.length && b.count == a.count && b.rounds == a.rounds);
    }
}

/* A Boolean of so many Should clauses under this minimum, half of them twice. */
static void put_many_clauses(size_t clauses, const char *minimum) {
    query.len = 0;
    for (size_t i = 0; i < clauses; i++) {
        put_hex(&query, "21 000D 01 000A 10 0001 66 11 0003");
        put_fill(&query, (uint8_t)('a' + i % (clauses / 2) / 25), 1);
        put_fill(&query, (uint8_t)('a' + i % 25), 2);
    }
    wrap(&query, 0x03, minimum);
}

static void rooms(void) {
    in_rooms("a leaf", TEXT("\6\0\0"), OUTPUT, 0);
    put_many_clauses(1000, "13 0002 0002");
    in_rooms("many clauses", all(&query), OUTPUT, 0);
    in_rooms("many clauses, a short output", all(&query), query.len - 1, 18);
    query.at[query.len - 1] = 0x80;
    in_rooms("a last byte that is not ASCII", all(&query), OUTPUT, 20);
    put_deep(&query, 65);
    in_rooms("too deep a query", all(&query), OUTPUT, 21);
    put_long_term(&query, 32769);
    in_rooms("too long a query", all(&query), OUTPUT, 19);
}

static void outputs(void) {
    size_t room = gorbihesh_rewrite_strict_room();
    put_many_clauses(100, "13 0002 0002");
    check_about("outputs for strict rewriting");
    CHECK(rewrite_strictly_in(all(&query), query.len, room).answer.rounds == 1);
    CHECK(rewrite_strictly_in(all(&query), query.len + 1, room).answer.length == query.len);
    const size_t too_short[] = {query.len - 1, query.len / 2, 1, 0, NULL_LENGTH};
    for (size_t i = 0; i < sizeof too_short / sizeof *too_short; i++)
        CHECK(is_refused(rewrite_strictly_in(all(&query), too_short[i], room), 18));
}

static void slices(void) {
    check_about("empty slices for strict rewriting");
    CHECK(is_refused(rewrite_strictly(NONE), 20));
    CHECK(is_refused(rewrite_strictly(NULL_SLICE), 20));
    CHECK(is_refused(rewrite_strictly_in(NULL_SLICE, NULL_LENGTH, NULL_LENGTH), 32));
    put_many_clauses(4, "13 0002 0002");
    for (size_t n = 0; n < query.len; n++) {
        check_about("the first %zu bytes of a query, strictly", n);
        CHECK(is_refused(rewrite_strictly((bytes){query.at, n}), 20));
    }
}

static void limits(void) {
    check_about("strictly, 32,768 bytes of stored query");
    put_long_term(&query, 32768);
    outcome o = rewrite_strictly(all(&query));
    CHECK(o.answer.rounds == 1 && o.answer.length == query.len && memcmp(o.bytes, query.at, query.len) == 0);
    put_long_term(&query, 32769);
    CHECK(is_refused(rewrite_strictly(all(&query)), 19));
    query.at[0] = 0xFF;
    CHECK(is_refused(rewrite_strictly(all(&query)), 19));
    check_about("strictly, depth 64");
    put_deep(&query, 64);
    CHECK(rewrite_strictly(all(&query)).answer.refusal == 0);
    put_deep(&query, 65);
    CHECK(is_refused(rewrite_strictly(all(&query)), 21));
    CHECK(is_refused(rewrite_strictly_in(all(&query), 0, gorbihesh_rewrite_strict_room()), 21));
}

int main(void) {
    larger_minimums();
    other_kinds();
    small_minimums();
    rooms();
    outputs();
    slices();
    limits();
    return check_done("strict");
}
