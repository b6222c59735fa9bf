/* Stored queries that are malformed, each beside the sound one that it is near to. All calls that read stored queries
 * take the one and refuse the other.
 */
#include "calls.h"
#include "check.h"
#include "pen.h"

#include <string.h>

static pen query;

static bytes hex(const char *digits) {
    query.len = 0;
    put_hex(&query, digits);
    return all(&query);
}

static void sound(const char *digits) {
    check_about("the sound query %s", digits);
    CHECK(rewrite(hex(digits)).answer.refusal == 0);
    CHECK(rewrite_strictly(hex(digits)).answer.refusal == 0);
    CHECK(pick(hex(digits), NONE).answer.refusal == 0);
}

static void bad(const char *digits) {
    check_about("the bad query %s", digits);
    CHECK(is_refused(rewrite(hex(digits)), 20));
    CHECK(is_refused(rewrite_strictly(hex(digits)), 20));
    CHECK(is_refused(pick(hex(digits), NONE), 20));
}

static void tags(void) {
    for (unsigned tag = 0; tag < 256; tag++) {
        uint8_t empty[3] = {(uint8_t)tag, 0, 0};
        check_about("tag %u with nothing in it", tag);
        int is_leaf = tag == 6 || tag == 7;
        uint32_t refusal = is_leaf ? 0 : 20;
        CHECK(rewrite((bytes){empty, 3}).answer.refusal == refusal);
        CHECK(pick((bytes){empty, 3}, NONE).answer.refusal == refusal);
    }
    bad("06 0001 00");
    bad("07 0003 06 0000");
    bad("06 0000 06 0000");
    bad("06 0001");
    bad("06 FFFF");
}

static void terms(void) {
    sound("01 0006 10 0000 11 0000");
    bad("01 0003 10 0000");
    bad("01 0003 11 0000");
    bad("01 0006 11 0000 10 0000");
    bad("01 0006 10 0000 12 0000");
    bad("01 0007 10 0000 11 0000 00");
    bad("01 0009 10 0000 11 0000 11 0000");
    bad("01 0007 10 0000 11 0002 61");
    sound("01 0007 10 0000 11 0001 7F");
    bad("01 0007 10 0000 11 0001 80");
    sound("01 0007 10 0001 7F 11 0000");
    bad("01 0007 10 0001 80 11 0000");
    sound("01 0026 10 0020 6161616161616161616161616161616161616161616161616161616161616161 11 0000");
    bad("01 0027 10 0021 616161616161616161616161616161616161616161616161616161616161616161 11 0000");
}

static void phrases(void) {
    sound("02 0003 10 0000");
    sound("02 000A 10 0000 12 0004 00000000");
    sound("02 0012 10 0000 12 0005 FFFFFFFF 61 12 0004 00000000");
    bad("02 0000");
    bad("02 0009 10 0000 12 0003 000000");
    bad("02 000B 10 0000 12 0005 00000000 80");
    bad("02 000A 10 0000 11 0004 00000000");
    bad("02 000B 10 0000 12 0004 00000000 12");
    bad("02 000A 12 0004 00000000 10 0000");
    bad("02 0004 10 0001 80");
}

static void booleans(void) {
    sound("03 0005 13 0002 0000");
    sound("03 0005 13 0002 FFFF");
    sound("03 001D 13 0002 0000 20 0003 06 0000 21 0003 06 0000 22 0003 06 0000 23 0003 06 0000");
    bad("03 0000");
    bad("03 0004 13 0001 00");
    bad("03 0006 13 0003 000000");
    bad("03 0006 20 0003 06 0000");
    bad("03 000A 13 0002 0000 13 0002 0000");
    bad("03 000B 13 0002 0000 1F 0003 06 0000");
    bad("03 000B 13 0002 0000 24 0003 06 0000");
    bad("03 000B 13 0002 0000 06 0003 06 0000");
    bad("03 0008 13 0002 0000 20 0000");
    bad("03 000C 13 0002 0000 20 0004 06 0000 00");
    bad("03 000E 13 0002 0000 20 0006 06 0000 06 0000");
    bad("03 000B 13 0002 0000 20 0002 06 0000");
    bad("03 0006 13 0002 0000 20");
    bad("03 000B 20 0003 06 0000 13 0002 0000");
}

static void boosts(void) {
    sound("04 0007 00000000 06 0000");
    sound("04 0007 80000000 06 0000");
    sound("04 0007 7F800000 06 0000");
    sound("04 0007 FF800000 06 0000");
    sound("04 0007 7FC00000 06 0000");
    bad("04 0007 7FC00001 06 0000");
    bad("04 0007 7F800001 06 0000");
    bad("04 0007 7FFFFFFF 06 0000");
    bad("04 0007 FFC00000 06 0000");
    bad("04 0007 FF800001 06 0000");
    bad("04 0004 00000000");
    bad("04 0003 000000");
    bad("04 0000");
    bad("04 0008 00000000 06 0000 00");
    bad("04 000A 00000000 06 0000 06 0000");
    sound("05 0003 06 0000");
    bad("05 0000");
    bad("05 0004 06 0000 00");
    bad("05 0006 06 0000 06 0000");
}

#define V "0000000000000001"

static void ranges(void) {
    sound("08 0009 10 0000 30 0000 30 0000");
    sound("08 0019 10 0000 31 0008" V "32 0008" V);
    sound("09 0019 10 0000 32 0008 7FF8000000000001 31 0008 FFFFFFFFFFFFFFFF");
    bad("08 0006 10 0000 30 0000");
    bad("08 000C 10 0000 30 0000 30 0000 30 0000");
    bad("08 000A 10 0000 30 0000 30 0000 00");
    bad("08 000A 10 0000 30 0001 00 30 0000");
    bad("08 0009 10 0000 31 0000 30 0000");
    bad("08 0010 10 0000 31 0007 00000000000000 30 0000");
    bad("08 0012 10 0000 31 0009" V "00 30 0000");
    bad("08 0011 10 0000 33 0008" V "30 0000");
    bad("08 0011 10 0000 2F 0008" V "30 0000");
    bad("08 0011 30 0000 31 0008" V "10 0000");
    bad("09 0011 10 0000 30 0000 33 0008" V);
    bad("09 0006 30 0000 30 0000");
    bad("09 000A 10 0001 80 30 0000 30 0000");
}

/* A lesser length inside than around, and a greater one. */
static void lengths(void) {
    bad("05 0003 06 0001");
    bad("05 0002 06 00");
    bad("03 000B 13 0002 0000 20 0004 06 0000");
    bad("04 0007 00000000 06 0001");
    bad("01 0005 10 0000 11 0000");
    bad("01 0007 10 0000 11 0000");
}

int main(void) {
    tags();
    terms();
    phrases();
    booleans();
    boosts();
    ranges();
    lengths();
    return check_done("stored");
}
