/* Rewriting at its fullest: piles of MatchAll in each kind and in all, up to 32,768 bytes; results that are longer than their
 * query, by a byte for each Boolean in it; a merge at each of 64 levels; boosts that make a NaN. What is expected is worked out
 * here by the rules of a round, and each query is tried with an output and a room that are just long enough.
 */
#include "calls.h"
#include "check.h"
#include "pen.h"

#include <string.h>

enum { MUST = 0x20, SHOULD, MUST_NOT, FILTER, BOOLEAN = 0x03, BOOST = 0x04, MOST = 32768 };

#define A "01 0008 10 0001 66 11 0001 61"
#define SHOULD_ALL "21 0003 06 0000"

static pen query, expected;

/* The query comes to what is expected, in so many rounds. */
static void comes_to(uint32_t rounds) {
    size_t room = gorbihesh_rewrite_room(), n = expected.len;
    outcome o = rewrite_in(all(&query), n, room);
    CHECK(o.answer.refusal == 0 && o.answer.rounds == rounds && o.answer.length == n);
    CHECK(n == o.answer.length && memcmp(o.bytes, expected.at, n) == 0);
    CHECK(is_refused(rewrite_in(all(&query), n - 1, room), 18));
    CHECK(is_refused(rewrite_in(all(&query), n, room - 1), 32));
}

/* A Boolean around the clauses that are written. */
static void wrap_boolean(pen *p, unsigned least) {
    static const char *minimums[3] = {"13 0002 0000", "13 0002 0001", "13 0002 0002"};
    wrap(p, BOOLEAN, minimums[least]);
}

/* What is written, under a boost. */
static void wrap_boost(pen *p, float boost) {
    uint32_t bits;
    char hex[9] = "";
    memcpy(&bits, &boost, 4);
    for (int i = 0; i < 8; i++) hex[i] = "0123456789ABCDEF"[bits >> (28 - 4 * i) & 15];
    wrap(p, BOOST, hex);
}

/* ---- piles of one kind */

static void put_pile(const uint8_t *kinds, size_t count_of_kinds, size_t count, unsigned least) {
    query.len = 0;
    for (size_t i = 0; i < count; i++) {
        put_fill(&query, kinds[i % count_of_kinds], 1);
        put_hex(&query, "0003 06 0000");
    }
    wrap_boolean(&query, least);
}

static void expect(const char *hex) {
    expected.len = 0;
    put_hex(&expected, hex);
}

/* Two MatchAll take 12 bytes, and one with the sum of their boosts takes 13. */
static void pile(size_t count) {
    static const uint8_t kinds[4] = {MUST, SHOULD, MUST_NOT, FILTER};
    check_about("%zu MatchAll", count);
    for (int i = 0; i < 3; i++) { /* Must; Should with a minimum of 0 and of 1 */
        put_pile(&kinds[i > 0], 1, count, i == 2);
        expect("06 0000");
        wrap_boost(&expected, (float)count);
        comes_to(3);
    }
    put_pile(&kinds[1], 1, count, 2); /* one is left, and two are asked for */
    expect("07 0000");
    comes_to(3);
    put_pile(&kinds[2], 1, count, 0);
    expect("07 0000");
    comes_to(2);
    put_pile(&kinds[3], 1, count, 0);
    expect("04 000A 00000000 05 0003 06 0000");
    comes_to(3);
}

/* All four kinds by turns: a Filter goes with the Must that it equals. */
static void mixed_pile(size_t rounds) {
    static const uint8_t kinds[4] = {MUST, SHOULD, MUST_NOT, FILTER};
    static pen clause;
    check_about("%zu MatchAll of each kind", rounds);
    put_pile(kinds, 4, 4 * rounds, 0);
    expected.len = 0;
    for (int i = 0; i < 3; i++) {
        clause.len = 0;
        put_hex(&clause, "06 0000");
        if (kinds[i] != MUST_NOT) wrap_boost(&clause, (float)rounds);
        wrap(&clause, kinds[i], "");
        put_bytes(&expected, all(&clause));
    }
    wrap_boolean(&expected, 0);
    comes_to(2);
}

/* ---- results that are longer than their query */

/* A word that no other number has. */
static void put_word(pen *p, size_t number) {
    put_hex(p, "01 0009 10 0000 11 0003");
    for (size_t i = 0, n = number; i < 3; i++, n /= 26) put_fill(p, (uint8_t)('a' + n % 26), 1);
}

/* A clause of this kind with a Boolean: a MatchAll, or two, and a word. */
static void put_pair(pen *p, uint8_t kind, size_t number, const char *before) {
    static pen inner;
    inner.len = 0;
    put_word(&inner, number);
    wrap(&inner, MUST, "");
    wrap(&inner, BOOLEAN, before);
    wrap(&inner, kind, "");
    put_bytes(p, all(&inner));
}

/* So many of them, and a Must with a term of so many bytes. */
static void put_pairs(pen *p, uint8_t kind, size_t count, const char *before, size_t term) {
    static pen last;
    p->len = 0;
    for (size_t i = 0; i < count; i++) put_pair(p, kind, i, before);
    put_long_term(&last, term);
    wrap(&last, MUST, "");
    put_bytes(p, all(&last));
    wrap_boolean(p, 0);
}

static void longer(uint8_t kind, size_t size) {
    enum { PAIR = 38, LEAST_TERM = 10, AROUND = 8 + 3 };
    size_t count = (size - AROUND - LEAST_TERM) / PAIR, term = size - AROUND - count * PAIR;
    check_about("%zu Booleans that grow, of kind %d", count, kind);
    put_pairs(&query, kind, count, "13 0002 0000" SHOULD_ALL SHOULD_ALL, term);
    CHECK(query.len == size);
    put_pairs(&expected, kind, count, "13 0002 0000 21 000A 04 0007 40000000 06 0000", term);
    CHECK(expected.len == size + count);
    comes_to(2);
}

/* ---- a merge at each level: the clause beside equals what is inside once that is one clause */

static void deep(size_t levels) {
    check_about("%zu levels, a merge at each", levels);
    query.len = 0;
    put_hex(&query, A);
    for (size_t i = 0; i < levels; i++) {
        wrap(&query, SHOULD, "");
        put_hex(&query, "21 000B" A);
        wrap_boolean(&query, 0);
    }
    expect(A);
    wrap_boost(&expected, (float)(levels + 1));
    comes_to((uint32_t)levels + 2);
}

/* ---- a NaN, which is always the one */

static void nan_from(const char *hex, const char *to, uint32_t rounds) {
    check_about("a NaN from %s", hex);
    query.len = 0;
    put_hex(&query, hex);
    expect(to);
    comes_to(rounds);
}

static void nans(void) {
    static const char *nan_a = "04 000F 7FC00000" A;
    nan_from(nan_a, nan_a, 1);
    nan_from("04 0016 7FC00000 04 000F 40000000" A, nan_a, 2);
    nan_from("04 0016 40000000 04 000F 7FC00000" A, nan_a, 2);
    nan_from("04 0016 7F800000 04 000F 00000000" A, nan_a, 2);
    nan_from("04 0016 80000000 04 000F FF800000" A, nan_a, 2);
    nan_from("03 002F 13 0002 0000 21 0012 04 000F 7F800000" A "21 0012 04 000F FF800000" A, nan_a, 3);
    nan_from("03 0028 13 0002 0001 21 000B" A "21 0012 04 000F 7FC00000" A, nan_a, 3);
    nan_from("03 0028 13 0002 0000 20 0012 04 000F 7FC00000" A "20 000B" A, nan_a, 3);
    /* two Filters with a NaN are equal, by their bits */
    nan_from("03 002F 13 0002 0000 23 0012 04 000F 7FC00000" A "23 0012 04 000F 7FC00000" A, "04 0012 00000000 05 000B" A, 4);
}

int main(void) {
    static const size_t counts[] = {2, 3, 12, 13, 14, 257, (MOST - 8) / 6};
    for (size_t i = 0; i < sizeof counts / sizeof counts[0]; i++) pile(counts[i]);
    CHECK(query.len == MOST);
    mixed_pile(2);
    mixed_pile(3);
    mixed_pile((MOST - 8) / 24);
    CHECK(query.len == MOST);
    for (uint8_t kind = MUST; kind <= FILTER; kind++) {
        longer(kind, 200);
        longer(kind, 1000);
        longer(kind, MOST);
    }
    for (size_t levels = 1; levels < GORBIHESH_REWRITE_DEPTH_MOST; levels++) deep(levels);
    nans();
    return check_done("piles");
}
