/* Prints the stack that each call uses: it runs on a painted stack, and what is no longer paint was used. Inputs are the
 * shapes that nest deepest, and typical ones. Status 1 where a call uses more than CALL_MOST: a scheduler's thread has
 * 16 KiB, and needs some for itself.
 */
#define _XOPEN_SOURCE 600 /* makecontext */
#include "gorbihesh.h"
#include "pen.h"

#include <stdio.h>
#include <stdlib.h>
#include <string.h>
#include <ucontext.h>

enum { STACK = 1 << 20, PAINT = 0xA5, OUTPUT = 100000, CALL_MOST = 14 * 1024 };

static uint8_t stack[STACK] __attribute__((aligned(64)));
static uint8_t out[OUTPUT];
static uint8_t *room;
static pen text, query, list;
static gorbihesh_answer answer;
static ucontext_t caller, called;
static size_t most;

static void call_nothing(void) { answer.refusal = 0; }

static uint8_t analyzer = GORBIHESH_SIMPLE;

static void call_parse(void) {
    answer = gorbihesh_parse(GORBIHESH_OR, analyzer, (const uint8_t *)"path", 4, (const uint8_t *)"\3\4kind", 6,
                             text.at, text.len, out, OUTPUT, room, gorbihesh_parse_room());
}

static void call_rewrite(void) {
    answer = gorbihesh_rewrite(query.at, query.len, out, OUTPUT, room, gorbihesh_rewrite_room());
}

static void call_rewrite_strict(void) {
    answer = gorbihesh_rewrite_strict(query.at, query.len, out, OUTPUT, room, gorbihesh_rewrite_strict_room());
}

static void call_select(void) {
    answer = gorbihesh_select(query.at, query.len, list.at, list.len, out, OUTPUT, room, gorbihesh_select_room());
}

static size_t used_by(void (*call)(void)) {
    memset(stack, PAINT, STACK);
    if (getcontext(&called) != 0) exit(2);
    called.uc_stack.ss_sp = stack;
    called.uc_stack.ss_size = STACK;
    called.uc_link = &caller;
    makecontext(&called, call, 0);
    if (swapcontext(&caller, &called) != 0) exit(2);
    size_t untouched = 0;
    while (untouched < STACK && stack[untouched] == PAINT) untouched++;
    return STACK - untouched;
}

/* What the switch of stacks uses by itself is taken off. */
static void print(const char *name, const char *on, void (*call)(void)) {
    size_t nothing = used_by(call_nothing);
    size_t all = used_by(call);
    size_t used = all > nothing ? all - nothing : 0;
    if (used > most) most = used;
    printf("stack    %-8s %-50s %8zu bytes, refusal %u\n", name, on, used, answer.refusal);
}

static void put_text(const char *before, const char *middle, size_t times, const char *behind) {
    text.len = 0;
    put_bytes(&text, (bytes){before, strlen(before)});
    for (size_t i = 0; i < times; i++) put_bytes(&text, (bytes){middle, strlen(middle)});
    put_bytes(&text, (bytes){behind, strlen(behind)});
}

static void parsing(void) {
    put_text("", "kind:settings -kind:cache", 1, "");
    print("parse", "kind:settings -kind:cache", call_parse);
    put_text("", "a ", 512, "");
    print("parse", "512 words", call_parse);
    put_text("", "((((((((((((((((((((((((a^1234567890123456789012345678901234567.5))))))))))))))))))))))))", 1, "");
    print("parse", "24 brackets, a numeral of 40 bytes inside", call_parse);
    put_text("", "-name:(+other:(", 12, "\"a b\"^7.006492321624085354618647916449580e\\-46))))))))))))))))))))))))");
    print("parse", "24 brackets with fields, a tiny numeral", call_parse);
    put_text("", "-(", 24, "a^7.006492321624085354618647916449580e\\-46))))))))))))))))))))))))");
    print("parse", "24 prohibited brackets, a tiny numeral", call_parse);
    put_text("", "(", 25, "");
    print("parse", "a 25th bracket", call_parse);
}

static void parsing_words(void) {
    analyzer = GORBIHESH_ENGLISH;
    put_text("\"", "don't move the 3.5 kg lid ", 39, "\"");
    print("parse", "39 notes in one, English", call_parse);
    put_text("", "-(", 24, "\"don't move the 3.5 kg lid\"^7.006492321624085354618647916449580e\\-46))))))))))))))))))))))))");
    print("parse", "24 prohibited brackets, a note, a tiny numeral", call_parse);
    analyzer = GORBIHESH_SIMPLE;
}

/* So many records one in another; each Boolean one has a second clause beside. */
static void put_nested(size_t depth, uint8_t clause) {
    query.len = 0;
    put_hex(&query, "02 0014 10 0001 66 12 0005 00000000 61 12 0005 00000001 62");
    for (size_t i = 1; i < depth; i++) {
        wrap(&query, clause, "");
        wrap(&query, 0x03, "13 0002 0000 21 000B 01 0008 10 0001 66 11 0001 61");
    }
}

static void put_nested_boosts(size_t depth) {
    query.len = 0;
    put_hex(&query, "06 0000");
    for (size_t i = 1; i < depth; i++) wrap(&query, i % 2 ? 0x05 : 0x04, i % 2 ? "" : "40000000");
}

/* Should clauses that all differ, under a minimum. */
static void put_wide_under(size_t clauses, const char *minimum) {
    query.len = 0;
    for (size_t i = 0; i < clauses; i++) {
        put_hex(&query, "21 000C 01 0009 10 0001 66 11 0002");
        put_fill(&query, (uint8_t)(i / 128 % 128), 1);
        put_fill(&query, (uint8_t)(i % 128), 1);
    }
    wrap(&query, 0x03, minimum);
}

static void put_wide(size_t clauses) { put_wide_under(clauses, "13 0002 0000"); }

static void rewriting(void) {
    put_nested(GORBIHESH_REWRITE_DEPTH_MOST, 0x20);
    print("rewrite", "Booleans to depth 64", call_rewrite);
    put_nested(GORBIHESH_REWRITE_DEPTH_MOST, 0x23);
    print("rewrite", "Booleans to depth 64, by Filters", call_rewrite);
    put_nested_boosts(GORBIHESH_REWRITE_DEPTH_MOST);
    print("rewrite", "boosts and constant scores to depth 64", call_rewrite);
    put_wide(40);
    for (size_t i = 2; i < GORBIHESH_REWRITE_DEPTH_MOST; i++) wrap(&query, i % 2 ? 0x05 : 0x04, i % 2 ? "" : "40000000");
    print("rewrite", "40 clauses under boosts and scores to depth 64", call_rewrite);
    put_wide(2100);
    print("rewrite", "2,100 clauses", call_rewrite);
    put_nested(GORBIHESH_REWRITE_DEPTH_MOST + 1, 0x20);
    print("rewrite", "a 65th record", call_rewrite);
}

static void rewriting_strictly(void) {
    put_nested(GORBIHESH_REWRITE_DEPTH_MOST, 0x20);
    print("strict", "Booleans to depth 64", call_rewrite_strict);
    put_nested_boosts(GORBIHESH_REWRITE_DEPTH_MOST);
    print("strict", "boosts and constant scores to depth 64", call_rewrite_strict);
    put_wide_under(40, "13 0002 0002");
    for (size_t i = 2; i < GORBIHESH_REWRITE_DEPTH_MOST; i++) wrap(&query, i % 2 ? 0x05 : 0x04, i % 2 ? "" : "40000000");
    print("strict", "40 clauses under boosts and scores to depth 64", call_rewrite_strict);
    put_wide_under(2100, "13 0002 0002");
    print("strict", "2,100 clauses, minimum 2", call_rewrite_strict);
}

static void selecting(void) {
    list.len = 0;
    while (list.len < GORBIHESH_LIST_MOST - 40)
        put_hex(&list, "40 001E 41 000C 10 0001 66 12 0005 00000000 61 41 000C 10 0001 66 12 0005 00000001 62");
    put_nested(GORBIHESH_SELECT_DEPTH_MOST, 0x20);
    print("select", "Booleans to depth 192", call_select);
    put_nested_boosts(GORBIHESH_SELECT_DEPTH_MOST);
    print("select", "boosts and constant scores to depth 192", call_select);
    put_nested(2, 0x21);
    print("select", "a term and a phrase", call_select);
}

int main(void) {
    room = malloc(gorbihesh_parse_room() + gorbihesh_rewrite_room() + gorbihesh_select_room() + 1);
    if (room == NULL) return 2;
    parsing();
    parsing_words();
    rewriting();
    rewriting_strictly();
    selecting();
    free(room);
    return most > CALL_MOST;
}
