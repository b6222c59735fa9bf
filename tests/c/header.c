/* The header beside the archive: version, rooms, the answer's layout, the words of each refusal. */
#include "check.h"
#include "gorbihesh.h"

#include <stdio.h>
#include <string.h>

static void version(void) {
    char spelled[40];
    check_about("version");
    snprintf(spelled, sizeof spelled, "%d.%d.%d", GORBIHESH_VERSION_MAJOR, GORBIHESH_VERSION_MINOR,
             GORBIHESH_VERSION_PATCH);
    CHECK(strcmp(spelled, GORBIHESH_VERSION_STRING) == 0);
    CHECK(GORBIHESH_VERSION_MINOR < 1000 && GORBIHESH_VERSION_PATCH < 1000);
    CHECK(gorbihesh_version() == GORBIHESH_VERSION);
}

static void rooms(void) {
    check_about("rooms");
    CHECK(gorbihesh_parse_room() == GORBIHESH_PARSE_ROOM);
    CHECK(gorbihesh_rewrite_room() == GORBIHESH_REWRITE_ROOM);
    CHECK(gorbihesh_rewrite_strict_room() == GORBIHESH_REWRITE_STRICT_ROOM);
    CHECK(gorbihesh_select_room() == GORBIHESH_SELECT_ROOM);
    CHECK(GORBIHESH_PARSE_ROOM <= 4194304);
    CHECK(GORBIHESH_REWRITE_ROOM <= 4194304);
    CHECK(GORBIHESH_REWRITE_STRICT_ROOM <= 4194304);
    CHECK(GORBIHESH_SELECT_ROOM <= 4194304);
}

static void layout(void) {
    check_about("layout");
    CHECK(sizeof(gorbihesh_answer) == 20);
    CHECK(offsetof(gorbihesh_answer, refusal) == 0);
    CHECK(offsetof(gorbihesh_answer, length) == 4);
    CHECK(offsetof(gorbihesh_answer, count) == 8);
    CHECK(offsetof(gorbihesh_answer, rounds) == 12);
    CHECK(offsetof(gorbihesh_answer, place) == 16);
}

static int is_number(uint32_t n) { return n <= 23 || n == 32; }

/* Every number has words of its own; all others share the words for a number that is none. */
static void words(void) {
    const char *none = gorbihesh_words(0xFFFFFFFF);
    CHECK(none != NULL && none[0] != 0);
    for (uint32_t n = 0; n < 300; n++) {
        const char *said = gorbihesh_words(n);
        check_about("the words of %u", n);
        CHECK(said != NULL && said[0] != 0);
        CHECK(strchr(said, '\n') == NULL && strlen(said) < 100);
        CHECK((strcmp(said, none) == 0) == !is_number(n));
        for (uint32_t m = 0; is_number(n) && m < n; m++)
            if (is_number(m)) CHECK(strcmp(said, gorbihesh_words(m)) != 0);
    }
}

static void names(void) {
    check_about("names");
    CHECK(GORBIHESH_LONG_TEXT == 1 && GORBIHESH_NOT_ASCII == 2 && GORBIHESH_BAD_SETUP == 3);
    CHECK(GORBIHESH_OPEN_QUOTE == 4 && GORBIHESH_LONG_NUMERAL == 17 && GORBIHESH_LONG_ANSWER == 18);
    CHECK(GORBIHESH_LONG_QUERY == 19 && GORBIHESH_MALFORMED_LIST == 23 && GORBIHESH_SHORT_ROOM == 32);
}

int main(void) {
    version();
    rooms();
    layout();
    words();
    names();
    return check_done("header");
}
