/* What the list header writes: byte for byte, and as gorbihesh_select reads it. */
#include "desk.h"

#include "pen.h"

#include <math.h>
#include <stdlib.h>
#include <string.h>

static pen expected;

static int is_written(const desk *d, const char *hex) {
    expected.len = 0;
    put_hex(&expected, hex);
    return d->list.length == expected.len && memcmp(d->list.bytes, expected.at, expected.len) == 0;
}

static void bytes_of_entries(void) {
    desk d = start_desk(1000);
    check_about("the bytes of each entry");
    gorbihesh_list_begin(&d.list);
    gorbihesh_list_word(&d.list, "f", 1, 0x01020304, "red", 3);
    gorbihesh_list_whole(&d.list, "n", 1, -2);
    gorbihesh_list_float(&d.list, "x", 1, 1.5);
    gorbihesh_list_word(&d.list, NULL, 0, 0, NULL, 0);
    CHECK(gorbihesh_list_end(&d.list) == GORBIHESH_LIST_DONE);
    gorbihesh_list_begin(&d.list);
    CHECK(gorbihesh_list_end(&d.list) == GORBIHESH_LIST_DONE);
    CHECK(is_written(&d, "40 0042 41 000E 10 0001 66 12 0007 01020304 726564"
                         " 44 000F 10 0001 6E 14 0008 FFFFFFFFFFFFFFFE"
                         " 45 000F 10 0001 78 14 0008 3FF8000000000000"
                         " 41 000A 10 0000 12 0004 00000000"
                         " 40 0000"));
    check_count(&d, 2);
    end_desk(&d);
}

/* A phrase of red and fox, positions 0 and 1: only where they follow one another in one field. */
static void phrases(void) {
    static const struct {
        const char *field;
        uint32_t red, fox;
    } cases[] = {{"f", 0, 1}, {"f", 1, 0}, {"f", 7, 8}, {"f", 0, 2}, {"g", 0, 1}, {"f", 0xFFFFFFFE, 0xFFFFFFFF}};
    desk d = start_desk(1000);
    check_about("phrases");
    for (size_t i = 0; i < sizeof cases / sizeof *cases; i++) {
        gorbihesh_list_begin(&d.list);
        gorbihesh_list_word(&d.list, cases[i].field, 1, cases[i].red, "red", 3);
        gorbihesh_list_word(&d.list, cases[i].field, 1, cases[i].fox, "fox", 3);
        CHECK(gorbihesh_list_end(&d.list) == GORBIHESH_LIST_DONE);
    }
    CHECK(is_picked(pick_hex(&d, "02 0018 10 0001 66 12 0007 00000000 726564 12 0007 00000001 666F78"), "0 2 5"));
    end_desk(&d);
}

static void wholes(void) {
    static const int64_t numbers[] = {INT64_MIN, -1, 0, 1, INT64_MAX};
    desk d = start_desk(1000);
    check_about("whole numbers");
    for (size_t i = 0; i < sizeof numbers / sizeof *numbers; i++) {
        gorbihesh_list_begin(&d.list);
        gorbihesh_list_whole(&d.list, "n", 1, numbers[i]);
        CHECK(gorbihesh_list_end(&d.list) == GORBIHESH_LIST_DONE);
    }
    CHECK(is_picked(pick_hex(&d, "08 0012 10 0001 6E 31 0008 0000000000000000 30 0000"), "2 3 4"));
    CHECK(is_picked(pick_hex(&d, "08 0012 10 0001 6E 30 0000 32 0008 0000000000000000"), "0 1"));
    CHECK(is_picked(pick_hex(&d, "08 0012 10 0001 6E 31 0008 7FFFFFFFFFFFFFFF 30 0000"), "4"));
    CHECK(is_picked(pick_hex(&d, "09 000A 10 0001 6E 30 0000 30 0000"), ""));
    end_desk(&d);
}

static void floats(void) {
    const double numbers[] = {-INFINITY, -1.5, -0.0, 1e-300, INFINITY, NAN};
    desk d = start_desk(1000);
    check_about("floats");
    for (size_t i = 0; i < sizeof numbers / sizeof *numbers; i++) {
        gorbihesh_list_begin(&d.list);
        gorbihesh_list_float(&d.list, "x", 1, numbers[i]);
        CHECK(gorbihesh_list_end(&d.list) == GORBIHESH_LIST_DONE);
    }
    CHECK(is_picked(pick_hex(&d, "09 000A 10 0001 78 30 0000 30 0000"), "0 1 2 3 4"));
    CHECK(is_picked(pick_hex(&d, "09 0012 10 0001 78 31 0008 0000000000000000 30 0000"), "2 3 4"));
    CHECK(is_picked(pick_hex(&d, "09 0012 10 0001 78 30 0000 31 0008 BFF8000000000000"), "0 1"));
    CHECK(is_picked(pick_hex(&d, "08 000A 10 0001 78 30 0000 30 0000"), ""));
    end_desk(&d);
}

static void rows(void) {
    const uint8_t bytes[] = {0, 0, 0, 0, 0, 0, 0x55, 0x54, 0xFF, 0xFE, 0xFD, 0xFC};
    check_about("rows");
    CHECK(gorbihesh_row(bytes, 0) == 0);
    CHECK(gorbihesh_row(bytes, 1) == 0x5554);
    CHECK(gorbihesh_row(bytes, 2) == 0xFFFEFDFC);
}

enum { WORDS = 6, RECORDS = 9000 };

/* Which of six words each record has, as bits, and which list it went to. */
static unsigned words_of[RECORDS];

static int add_drawn(desk *d, unsigned has) {
    gorbihesh_list_begin(&d->list);
    for (unsigned w = 0; w < WORDS; w++) {
        char letter = (char)('a' + w);
        if (has >> w & 1) gorbihesh_list_word(&d->list, "f", 1, w, &letter, 1);
    }
    return gorbihesh_list_end(&d->list);
}

/* The records from `first` on, beside what gorbihesh_select picks for each word. */
static void compare_words(const desk *d, size_t first) {
    for (unsigned w = 0; w < WORDS; w++) {
        const uint8_t query[] = {1, 0, 8, 0x10, 0, 1, 'f', 0x11, 0, 1, (uint8_t)('a' + w)};
        outcome o = pick((bytes){query, sizeof query}, (bytes){d->list.bytes, d->list.length});
        uint32_t row = 0;
        int is_same = o.answer.refusal == 0;
        for (uint32_t i = 0; i < d->list.count; i++)
            if (words_of[first + i] >> w & 1) is_same &= row < o.answer.count && gorbihesh_row(o.bytes, row++) == i;
        CHECK(is_same && row == o.answer.count);
    }
}

/* As a scheduler fills lists: where one is full, the next is started and the record written again. */
static void list_after_list(void) {
    desk d = start_desk(GORBIHESH_LIST_MOST);
    size_t first = 0, lists = 1;
    check_about("list after list");
    srand(15);
    for (size_t i = 0; i < RECORDS; i++) {
        words_of[i] = (unsigned)rand() % (1u << WORDS);
        int answer = add_drawn(&d, words_of[i]);
        if (answer == GORBIHESH_LIST_FULL) {
            compare_words(&d, first);
            first = i;
            lists++;
            gorbihesh_list_start(&d.list, d.lent.at, d.lent.len);
            answer = add_drawn(&d, words_of[i]);
        }
        CHECK(answer == GORBIHESH_LIST_DONE);
    }
    compare_words(&d, first);
    CHECK(first + d.list.count == RECORDS && lists > 5);
    end_desk(&d);
}

int main(void) {
    bytes_of_entries();
    phrases();
    wholes();
    floats();
    rows();
    list_after_list();
    return check_done("list entries");
}
