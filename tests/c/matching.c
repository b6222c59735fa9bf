/* What a query is true of: the rules of 'Matching and selection', each on a few records. */
#include "calls.h"
#include "check.h"
#include "pen.h"

#include <string.h>

static pen query, list;

static void picks(const char *what, const char *query_hex, const char *list_hex, const char *rows) {
    check_about("%s", what);
    query.len = list.len = 0;
    put_hex(&query, query_hex);
    put_hex(&list, list_hex);
    CHECK(is_picked(pick(all(&query), all(&list)), rows));
}

/* Records that hold one entry each: the text `a` or `b` of the field `f` at a position. */
#define R "40 000F 41 000C 10 0001 66 12 0005"
#define A "01 0008 10 0001 66 11 0001 61"
#define B "01 0008 10 0001 66 11 0001 62"

static void terms(void) {
    picks("a term", A, R "00000000 61" R "00000000 62" R "FFFFFFFF 61", "0 2");
    picks("a term in another field", "01 0008 10 0001 67 11 0001 61", R "00000000 61", "");
    picks("a term in no field", "01 0007 10 0000 11 0001 61", R "00000000 61 40 000E 41 000B 10 0000 12 0005 00000000 61",
          "1");
    picks("a term of no text", "01 0007 10 0001 66 11 0000", R "00000000 61 40 000E 41 000B 10 0001 66 12 0004 00000000",
          "1");
    picks("a term that begins another", A, "40 0010 41 000D 10 0001 66 12 0006 00000000 6161", "");
    picks("a term of the bytes of a value", "01 000F 10 0001 66 11 0008 0000000000000061",
          "40 0012 44 000F 10 0001 66 14 0008 0000000000000061", "");
    picks("a second entry", B, "40 001E 41 000C 10 0001 66 12 0005 00000000 61 41 000C 10 0001 66 12 0005 00000001 62", "0");
    picks("all and none", "06 0000", "40 0000" R "00000000 61", "0 1");
    picks("all and none", "07 0000", "40 0000" R "00000000 61", "");
}

/* A record with a at p and b at q, and the phrase of a at p and b at q. */
#define AB(p, q) "40 001E 41 000C 10 0001 66 12 0005" p "61 41 000C 10 0001 66 12 0005" q "62"
#define PHRASE(p, q) "02 0014 10 0001 66 12 0005" p "61 12 0005" q "62"

static void phrases(void) {
    const char *records = AB("00000000", "00000001") AB("00000001", "00000000") AB("00000007", "00000008")
        AB("00000000", "00000002") R "00000000 61";
    picks("a phrase", PHRASE("00000000", "00000001"), records, "0 2");
    picks("a phrase backwards", PHRASE("00000001", "00000000"), records, "1");
    picks("a phrase moved back", PHRASE("00000003", "00000004"), records, "0 2");
    picks("a phrase with a gap", PHRASE("FFFFFFF0", "FFFFFFF2"), records, "3");
    picks("two words at one position", PHRASE("00000000", "00000000"), records, "");
    picks("no wrapping at 32 bits", PHRASE("FFFFFFFF", "00000000"), AB("00000000", "00000001"), "");
    picks("no wrapping at 32 bits", PHRASE("00000000", "00000001"), AB("FFFFFFFF", "00000000"), "");
    picks("from the first to the last position", PHRASE("00000000", "FFFFFFFF"), AB("00000000", "FFFFFFFF"), "0");
    picks("one word at position 3", "02 000C 10 0001 66 12 0005 00000003 61", R "00000000 61" R "00000009 61" R "00000003 62",
          "0 1");
    picks("a phrase of no words", "02 0004 10 0001 66", records, "");
    picks("a phrase in another field", "02 0014 10 0001 67 12 0005 00000000 61 12 0005 00000001 62", records, "");
    picks("a word twice", "02 0014 10 0001 66 12 0005 00000000 61 12 0005 00000001 61",
          R "00000000 61 40 001E 41 000C 10 0001 66 12 0005 00000004 61 41 000C 10 0001 66 12 0005 00000005 61", "1");
}

/* Records with one value each, whole or float, and a range of each kind between two bounds. */
#define WHOLE(v) "40 0012 44 000F 10 0001 66 14 0008" v
#define FLOAT(v) "40 0012 45 000F 10 0001 66 14 0008" v
#define WHOLES "08 001A 10 0001 66"
#define FLOATS "09 001A 10 0001 66"
#define FROM(v) "31 0008" v
#define ABOVE(v) "32 0008" v
#define ZERO "0000000000000000"
#define ONE "0000000000000001"
#define MINUS_ONE "FFFFFFFFFFFFFFFF"
#define LEAST "8000000000000000"
#define MOST "7FFFFFFFFFFFFFFF"

static void whole_ranges(void) {
    const char *records = WHOLE(MINUS_ONE) WHOLE(ZERO) WHOLE(ONE) WHOLE(LEAST) WHOLE(MOST) FLOAT(ZERO);
    picks("both included", WHOLES FROM(ZERO) FROM(ONE), records, "1 2");
    picks("lower excluded", WHOLES ABOVE(ZERO) FROM(ONE), records, "2");
    picks("upper excluded", WHOLES FROM(ZERO) ABOVE(ONE), records, "1");
    picks("signed", WHOLES FROM(LEAST) FROM(ZERO), records, "0 1 3");
    picks("above zero", "08 0012 10 0001 66" ABOVE(ZERO) "30 0000", records, "2 4");
    picks("below zero", "08 0012 10 0001 66 30 0000" ABOVE(ZERO), records, "0 3");
    picks("open", "08 000A 10 0001 66 30 0000 30 0000", records, "0 1 2 3 4");
    picks("low above high", WHOLES FROM(ONE) FROM(ZERO), records, "");
    picks("another field", "08 000A 10 0001 67 30 0000 30 0000", records, "");
    picks("no value", "08 000A 10 0001 66 30 0000 30 0000", "40 0000" R "00000000 61", "");
}

#define F_ONE "3FF0000000000000"
#define F_MINUS_ONE "BFF0000000000000"
#define F_MINUS_ZERO "8000000000000000"
#define F_INFINITY "7FF0000000000000"
#define F_MINUS_INFINITY "FFF0000000000000"
#define F_NAN "7FF8000000000000"

static void float_ranges(void) {
    const char *records = FLOAT(F_MINUS_ONE) FLOAT(F_MINUS_ZERO) FLOAT(ZERO) FLOAT(F_ONE) FLOAT(F_INFINITY)
        FLOAT(F_MINUS_INFINITY) FLOAT(F_NAN) FLOAT("FFF8000000000001") WHOLE(ZERO);
    picks("both zeros are equal", FLOATS FROM(ZERO) FROM(F_MINUS_ZERO), records, "1 2");
    picks("neither zero is above the other", FLOATS ABOVE(F_MINUS_ZERO) FROM(F_ONE), records, "3");
    picks("negative ends", FLOATS FROM(F_MINUS_ONE) ABOVE(ZERO), records, "0");
    picks("infinite ends", FLOATS FROM(F_MINUS_INFINITY) FROM(F_INFINITY), records, "0 1 2 3 4 5");
    picks("infinite ends excluded", FLOATS ABOVE(F_MINUS_INFINITY) ABOVE(F_INFINITY), records, "0 1 2 3");
    picks("open, NaN never", "09 000A 10 0001 66 30 0000 30 0000", records, "0 1 2 3 4 5");
    picks("a NaN below", FLOATS FROM(F_NAN) FROM(F_ONE), records, "");
    picks("a NaN above", FLOATS FROM(ZERO) FROM(F_NAN), records, "");
    picks("a NaN below, open above", "09 0012 10 0001 66" ABOVE(F_NAN) "30 0000", records, "");
    picks("the least subnormal", FLOATS ABOVE(ZERO) FROM(ONE), FLOAT(ONE) FLOAT(ZERO), "0");
}

/* Records with nothing, a, b, and both. */
#define FOUR "40 0000" R "00000000 61" R "00000000 62" AB("00000000", "00000000")

static void kinds(void) {
    picks("Should a, Should b", "03 0021 13 0002 0000 21 000B" A "21 000B" B, FOUR, "1 2 3");
    picks("Must a, Should b", "03 0021 13 0002 0000 20 000B" A "21 000B" B, FOUR, "1 3");
    picks("Filter a, Must b", "03 0021 13 0002 0000 23 000B" A "20 000B" B, FOUR, "3");
    picks("Should a, MustNot b", "03 0021 13 0002 0000 21 000B" A "22 000B" B, FOUR, "1");
    picks("MustNot b alone", "03 0013 13 0002 0000 22 000B" B, FOUR, "");
    picks("Filter all, MustNot b", "03 0019 13 0002 0000 23 0003 06 0000 22 000B" B, FOUR, "0 1");
    picks("no clauses", "03 0005 13 0002 0000", FOUR, "");
}

static void minimums(void) {
    picks("minimum 1", "03 0021 13 0002 0001 21 000B" A "21 000B" B, FOUR, "1 2 3");
    picks("minimum 2", "03 0021 13 0002 0002 21 000B" A "21 000B" B, FOUR, "3");
    picks("minimum 3 of two", "03 0021 13 0002 0003 21 000B" A "21 000B" B, FOUR, "");
    picks("minimum 2, one twice", "03 0021 13 0002 0002 21 000B" A "21 000B" A, FOUR, "1 3");
    picks("minimum 1, Must all", "03 0019 13 0002 0001 20 0003 06 0000 21 000B" A, FOUR, "1 3");
    picks("minimum 0, Must all", "03 0019 13 0002 0000 20 0003 06 0000 21 000B" A, FOUR, "0 1 2 3");
    picks("minimum 65,535", "03 0021 13 0002 FFFF 21 000B" A "21 000B" B, FOUR, "");
    picks("minimum 1, no Should", "03 0013 13 0002 0001 20 000B" A, FOUR, "");
}

static void around(void) {
    picks("a boost", "04 000F 00000000" A, FOUR, "1 3");
    picks("a NaN boost", "04 000F 7FC00000" A, FOUR, "1 3");
    picks("a constant score", "05 000B" A, FOUR, "1 3");
    picks("a Boolean in a clause", "03 003A 13 0002 0000 20 0024 03 0021 13 0002 0000 21 000B" A "21 000B" B "22 000B" B, FOUR,
          "1");
}

/* Record numbers past one and two bytes, in four bytes, rising. */
static void row_numbers(void) {
    list.len = 0;
    for (int i = 0; i < 700; i++) {
        if (i == 5 || i == 255 || i == 256 || i == 699) put_hex(&list, R "00000000 61");
        else put_hex(&list, "40 0000");
    }
    query.len = 0;
    put_hex(&query, A);
    check_about("row numbers");
    outcome o = pick(all(&query), all(&list));
    CHECK(is_picked(o, "5 255 256 699"));
    CHECK(is_stored(o, "00000005 000000FF 00000100 000002BB"));
}

int main(void) {
    terms();
    phrases();
    whole_ranges();
    float_ranges();
    kinds();
    minimums();
    around();
    row_numbers();
    return check_done("matching");
}
