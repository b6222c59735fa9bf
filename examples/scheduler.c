/* A scheduler in some sixty lines: writes a catalogue list, then parses, rewrites and runs each selector over it.
 * Nothing is allocated. A real one reads its files from somewhere, and has as many lists as they fill; command/src has
 * all of that.
 */
#include "gorbihesh_list.h"

#include <stdio.h>

static const struct {
    const char *kind, *name;
    int64_t size;
} files[] = {{"settings", "site.db", 33}, {"cache", "site.db-journal", 14}, {"shows", "Evening.csv", 50}};

enum { FILES = sizeof files / sizeof *files };

/* What is lent to the calls. One room serves them all, as long as the call that needs most. */
static uint8_t list_bytes[GORBIHESH_LIST_MOST], parsed[GORBIHESH_REWRITE_QUERY_MOST];
static uint8_t rewritten[GORBIHESH_SELECT_QUERY_MOST], rows[4 * FILES], room[GORBIHESH_REWRITE_ROOM];

/* A record for each file, with three fields. GORBIHESH_LIST_FULL would mean: start the next list, and write it again.
 */
static int write_list(gorbihesh_list *list) {
    gorbihesh_list_start(list, list_bytes, sizeof list_bytes);
    for (int i = 0; i < FILES; i++) {
        gorbihesh_list_begin(list);
        gorbihesh_list_word(list, "kind", 4, 0, files[i].kind, strlen(files[i].kind));
        gorbihesh_list_word(list, "name", 4, 0, files[i].name, strlen(files[i].name));
        gorbihesh_list_whole(list, "size", 4, files[i].size);
        if (gorbihesh_list_end(list) != GORBIHESH_LIST_DONE) return 0;
    }
    return 1;
}

/* Clauses with nothing between them are joined by Or. A clause that names no field asks for a kind; every field is
 * compared whole. Each call is refused or done, and a refusal leaves its output as it was.
 */
static gorbihesh_answer pick(const char *selector, const gorbihesh_list *list) {
    const uint8_t *field = (const uint8_t *)"kind", *text = (const uint8_t *)selector;
    gorbihesh_answer a = gorbihesh_parse(GORBIHESH_OR, GORBIHESH_KEYWORD, field, 4, NULL, 0, text, strlen(selector),
                                         parsed, sizeof parsed, room, sizeof room);
    if (a.refusal != 0) return a;
    a = gorbihesh_rewrite(parsed, a.length, rewritten, sizeof rewritten, room, sizeof room);
    if (a.refusal != 0) return a;
    return gorbihesh_select(rewritten, a.length, list->bytes, list->length, rows, sizeof rows, room, sizeof room);
}

static void run(const char *selector, const gorbihesh_list *list) {
    gorbihesh_answer a = pick(selector, list);
    printf("%s\n", selector);
    if (a.refusal != 0) printf("    refused, %u: %s\n", (unsigned)a.refusal, gorbihesh_words(a.refusal));
    for (uint32_t i = 0; i < a.count; i++) {
        uint32_t record = gorbihesh_row(rows, i);
        printf("    %s/%s\n", files[record].kind, files[record].name);
    }
}

int main(void) {
    gorbihesh_list list;
    if (!write_list(&list)) return 1;
    run("settings shows", &list);
    run("name:site.db -cache", &list);
    run("shows AND NOT name:Evening.csv", &list);
    run("name:\"Evening", &list);
    return 0;
}
