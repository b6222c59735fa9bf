/* Catalogue lists that are malformed, each beside the sound one that it is near to. */
#include "calls.h"
#include "check.h"
#include "pen.h"

#include <string.h>

static pen list;

static outcome picked(const char *digits) {
    list.len = 0;
    put_hex(&list, digits);
    return pick(TEXT("\6\0\0"), all(&list));
}

static void sound(const char *digits, const char *rows) {
    check_about("the sound list %s", digits);
    CHECK(is_picked(picked(digits), rows));
}

static void bad(const char *digits) {
    check_about("the bad list %s", digits);
    CHECK(is_refused(picked(digits), 23));
}

static void records(void) {
    sound("", "");
    sound("40 0000", "0");
    sound("40 0000 40 0000", "0 1");
    bad("40");
    bad("40 00");
    bad("40 0001");
    bad("40 FFFF");
    bad("40 0000 40");
    bad("00");
    bad("3F 0000");
    bad("41 0000");
    bad("40 0000 06 0000");
    bad("40 0003 40 0000");
    bad("40 0001 00");
}

static void entry_tags(void) {
    for (unsigned tag = 0; tag < 256; tag++) {
        uint8_t text[] = {0x40, 0, 13, (uint8_t)tag, 0, 10, 0x10, 0, 0, 0x12, 0, 4, 0, 0, 0, 0};
        uint8_t value[] = {0x40, 0, 17, (uint8_t)tag, 0, 14, 0x10, 0, 0, 0x14, 0, 8, 0, 0, 0, 0, 0, 0, 0, 0};
        check_about("entries with tag %u", tag);
        CHECK(pick(TEXT("\6\0\0"), (bytes){text, sizeof text}).answer.refusal == (tag == 0x41 ? 0 : 23));
        int is_number = tag == 0x44 || tag == 0x45;
        CHECK(pick(TEXT("\6\0\0"), (bytes){value, sizeof value}).answer.refusal == (is_number ? 0 : 23));
    }
}

static void texts(void) {
    sound("40 000D 41 000A 10 0000 12 0004 00000000", "0");
    sound("40 000E 41 000B 10 0001 7F 12 0004 FFFFFFFF", "0");
    sound("40 000E 41 000B 10 0000 12 0005 00000000 7F", "0");
    bad("40 000E 41 000B 10 0001 80 12 0004 00000000");
    bad("40 000E 41 000B 10 0000 12 0005 00000000 80");
    bad("40 000C 41 0009 10 0000 12 0003 000000");
    bad("40 0006 41 0003 10 0000");
    bad("40 0003 41 0000");
    bad("40 000D 41 000A 12 0004 00000000 10 0000");
    bad("40 000D 41 000A 10 0000 11 0004 00000000");
    bad("40 000E 41 000B 10 0000 12 0004 00000000 00");
    bad("40 0014 41 0011 10 0000 12 0004 00000000 12 0004 00000000");
    bad("40 000E 41 000A 10 0000 12 0004 00000000 00");
    bad("40 000C 41 000A 10 0000 12 0004 00000000");
    sound("40 002D 41 002A 10 0020 6161616161616161616161616161616161616161616161616161616161616161 12 0004 00000000", "0");
    bad("40 002E 41 002B 10 0021 616161616161616161616161616161616161616161616161616161616161616161 12 0004 00000000");
}

static void values(void) {
    sound("40 0011 44 000E 10 0000 14 0008 0000000000000000", "0");
    sound("40 0011 45 000E 10 0000 14 0008 7FF0000000000001", "0");
    sound("40 0022 44 000E 10 0000 14 0008 0000000000000000 45 000E 10 0000 14 0008 0000000000000000", "0");
    bad("40 0010 44 000D 10 0000 14 0007 00000000000000");
    bad("40 0012 44 000F 10 0000 14 0009 000000000000000000");
    bad("40 0011 44 000E 10 0000 12 0008 0000000000000000");
    bad("40 0012 44 000F 10 0000 14 0008 0000000000000000 00");
    bad("40 0012 45 000F 10 0001 FF 14 0008 0000000000000000");
    bad("40 0006 44 0003 10 0000");
    bad("40 0010 45 000E 10 0000 14 0008 00000000000000");
}

/* A bad record is refused wherever it stands, though records before it are sound. */
static void places(void) {
    bad("40 0000 40 0001 00 40 0000");
    bad("40 0001 00 40 0000 40 0000");
    bad("40 0000 40 0000 40 0001 00");
    bad("40 000D 41 000A 10 0000 12 0004 00000000 40 000D 41 000A 10 0000 12 0005 00000000");
}

int main(void) {
    records();
    entry_tags();
    texts();
    values();
    places();
    return check_done("lists");
}
