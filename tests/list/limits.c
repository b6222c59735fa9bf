/* Both sides of each limit that the list header keeps, and what a spoiled record leaves behind. */
#include "desk.h"

#include <string.h>

/* The least record is three bytes; a word takes 17 and its text. */
static void a_full_list(void) {
    desk d = start_desk(GORBIHESH_LIST_MOST);
    check_about("a record of 65,536 bytes");
    CHECK(add_record_of(&d, GORBIHESH_LIST_MOST + 1) == GORBIHESH_LIST_LONG_RECORD);
    check_count(&d, 0);
    CHECK(add_record_of(&d, GORBIHESH_LIST_MOST) == GORBIHESH_LIST_DONE);
    CHECK(d.list.length == GORBIHESH_LIST_MOST);
    check_count(&d, 1);
    CHECK(gorbihesh_list_begin(&d.list) == GORBIHESH_LIST_FULL);
    CHECK(gorbihesh_list_end(&d.list) == GORBIHESH_LIST_FULL);
    check_count(&d, 1);
    end_desk(&d);
}

static void two_records(void) {
    desk d = start_desk(GORBIHESH_LIST_MOST);
    check_about("two records of 65,536 bytes");
    CHECK(add_record_of(&d, 40000) == GORBIHESH_LIST_DONE);
    CHECK(add_record_of(&d, GORBIHESH_LIST_MOST - 40000 + 1) == GORBIHESH_LIST_FULL);
    check_count(&d, 1);
    CHECK(add_record_of(&d, GORBIHESH_LIST_MOST - 40000) == GORBIHESH_LIST_DONE);
    check_count(&d, 2);
    end_desk(&d);
}

/* As many empty records as there is room for, three bytes each. */
static void empty_records(size_t room) {
    desk d = start_desk(room);
    check_about("empty records in %zu bytes", room);
    uint32_t count = 0;
    while (gorbihesh_list_begin(&d.list) == GORBIHESH_LIST_DONE) {
        CHECK(gorbihesh_list_end(&d.list) == GORBIHESH_LIST_DONE);
        count++;
    }
    CHECK(gorbihesh_list_end(&d.list) == (count == 0 ? GORBIHESH_LIST_LONG_RECORD : GORBIHESH_LIST_FULL));
    CHECK(count == (room < GORBIHESH_LIST_MOST ? room : GORBIHESH_LIST_MOST) / 3);
    check_count(&d, count);
    end_desk(&d);
}

/* Rooms of every length around records of 20 bytes, and one that is longer than a list may be. */
static void rooms(void) {
    for (size_t room = 0; room < 45; room++) {
        desk d = start_desk(room);
        check_about("a room of %zu bytes", room);
        CHECK(add_record_of(&d, 20) == (room < 20 ? GORBIHESH_LIST_LONG_RECORD : GORBIHESH_LIST_DONE));
        if (room >= 20) CHECK(add_record_of(&d, 20) == (room < 40 ? GORBIHESH_LIST_FULL : GORBIHESH_LIST_DONE));
        check_count(&d, (uint32_t)(room / 20));
        end_desk(&d);
    }
    desk d = start_desk(GORBIHESH_LIST_MOST + 100);
    check_about("a room longer than a list");
    CHECK(add_record_of(&d, GORBIHESH_LIST_MOST + 1) == GORBIHESH_LIST_LONG_RECORD);
    CHECK(add_record_of(&d, GORBIHESH_LIST_MOST) == GORBIHESH_LIST_DONE);
    check_count(&d, 1);
    check_fences(&d.lent);
    CHECK(is_unchanged(&d.lent, GORBIHESH_LIST_MOST));
    end_desk(&d);
}

/* A number takes 3, 3 and the field, 3 and 8 bytes. */
static void numbers_at_the_end(void) {
    for (size_t room = 20; room < 24; room++) {
        desk d = start_desk(room);
        check_about("a number in a room of %zu bytes", room);
        gorbihesh_list_begin(&d.list);
        gorbihesh_list_whole(&d.list, "f", 1, 5);
        CHECK(gorbihesh_list_end(&d.list) == (room < 21 ? GORBIHESH_LIST_LONG_RECORD : GORBIHESH_LIST_DONE));
        check_count(&d, room < 21 ? 0 : 1);
        end_desk(&d);
    }
}

static void fields(void) {
    char name[GORBIHESH_FIELD_MOST + 1];
    desk d = start_desk(1000);
    memset(name, 'n', sizeof name);
    for (size_t length = 0; length <= GORBIHESH_FIELD_MOST + 1; length++) {
        int expected = length <= GORBIHESH_FIELD_MOST ? GORBIHESH_LIST_DONE : GORBIHESH_LIST_LONG_FIELD;
        check_about("a field name of %zu bytes", length);
        gorbihesh_list_start(&d.list, d.lent.at, d.lent.len);
        gorbihesh_list_begin(&d.list);
        CHECK(gorbihesh_list_word(&d.list, length == 0 ? NULL : name, length, 0, "a", 1) == expected);
        CHECK(gorbihesh_list_whole(&d.list, name, length, 1) == expected);
        CHECK(gorbihesh_list_float(&d.list, name, length, 1) == expected);
        CHECK(gorbihesh_list_end(&d.list) == expected);
        check_count(&d, expected == GORBIHESH_LIST_DONE ? 1 : 0);
    }
    end_desk(&d);
}

static void every_byte(void) {
    for (int byte = 0; byte < 256; byte++) {
        int expected = byte < 0x80 ? GORBIHESH_LIST_DONE : GORBIHESH_LIST_NOT_ASCII;
        char text[] = {'a', (char)byte, 'b'};
        desk d = start_desk(1000);
        check_about("the byte %d", byte);
        CHECK(add_word_record(&d, text, sizeof text) == expected);
        gorbihesh_list_begin(&d.list);
        CHECK(gorbihesh_list_word(&d.list, text, sizeof text, 0, "a", 1) == expected);
        CHECK(gorbihesh_list_end(&d.list) == expected);
        gorbihesh_list_begin(&d.list);
        CHECK(gorbihesh_list_whole(&d.list, text, sizeof text, 0) == expected);
        CHECK(gorbihesh_list_end(&d.list) == expected);
        check_count(&d, byte < 0x80 ? 3 : 0);
        end_desk(&d);
    }
}

/* The first fault is told to the end, and no trace of its record stays. */
static void spoiled(void) {
    desk d = start_desk(1000);
    check_about("a spoiled record");
    CHECK(add_word_record(&d, "first", 5) == GORBIHESH_LIST_DONE);
    CHECK(gorbihesh_list_begin(&d.list) == GORBIHESH_LIST_DONE);
    CHECK(gorbihesh_list_word(&d.list, "f", 1, 0, "lost", 4) == GORBIHESH_LIST_DONE);
    CHECK(gorbihesh_list_word(&d.list, "f", 1, 0, "\x80", 1) == GORBIHESH_LIST_NOT_ASCII);
    CHECK(gorbihesh_list_word(&d.list, "f", 1, 0, "fine", 4) == GORBIHESH_LIST_NOT_ASCII);
    CHECK(gorbihesh_list_end(&d.list) == GORBIHESH_LIST_NOT_ASCII);
    CHECK(add_word_record(&d, "third", 5) == GORBIHESH_LIST_DONE);
    check_count(&d, 2);
    CHECK(is_picked(pick_hex(&d, "01 000B 10 0001 66 11 0004 6C6F7374"), ""));
    CHECK(is_picked(pick_hex(&d, "01 000C 10 0001 66 11 0005 7468697264"), "1"));
    end_desk(&d);
}

static void out_of_turn(void) {
    desk d = start_desk(1000);
    check_about("calls out of turn");
    CHECK(gorbihesh_list_word(&d.list, "f", 1, 0, "a", 1) == GORBIHESH_LIST_NO_RECORD);
    CHECK(gorbihesh_list_whole(&d.list, "f", 1, 0) == GORBIHESH_LIST_NO_RECORD);
    CHECK(gorbihesh_list_end(&d.list) == GORBIHESH_LIST_NO_RECORD);
    CHECK(gorbihesh_list_begin(&d.list) == GORBIHESH_LIST_DONE);
    CHECK(gorbihesh_list_word(&d.list, "f", 1, 0, "dropped", 7) == GORBIHESH_LIST_DONE);
    CHECK(add_word_record(&d, "kept", 4) == GORBIHESH_LIST_DONE);
    CHECK(gorbihesh_list_end(&d.list) == GORBIHESH_LIST_NO_RECORD);
    CHECK(gorbihesh_list_float(&d.list, "f", 1, 0) == GORBIHESH_LIST_NO_RECORD);
    check_count(&d, 1);
    CHECK(is_picked(pick_hex(&d, "01 000B 10 0001 66 11 0004 6B657074"), "0"));
    end_desk(&d);
}

int main(void) {
    a_full_list();
    two_records();
    for (size_t room = 0; room < 8; room++) empty_records(room);
    empty_records(GORBIHESH_LIST_MOST);
    rooms();
    numbers_at_the_end();
    fields();
    every_byte();
    spoiled();
    out_of_turn();
    return check_done("list limits");
}
