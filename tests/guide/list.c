/* Writes the list that docs/FORMATS.md shows to standard output: two records, with an entry of each kind. */
#include "gorbihesh_list.h"

#include <stdio.h>
#include <string.h>

static void word(gorbihesh_list *l, const char *field, uint32_t position, const char *text) {
    gorbihesh_list_word(l, field, strlen(field), position, text, strlen(text));
}

int main(void) {
    static uint8_t bytes[GORBIHESH_LIST_MOST];
    gorbihesh_list l;
    gorbihesh_list_start(&l, bytes, sizeof bytes);
    gorbihesh_list_begin(&l);
    word(&l, "kind", 0, "settings");
    gorbihesh_list_whole(&l, "size", 4, 32);
    if (gorbihesh_list_end(&l) != GORBIHESH_LIST_DONE) return 1;
    gorbihesh_list_begin(&l);
    word(&l, "kind", 0, "shows");
    word(&l, "path", 0, "evening");
    word(&l, "path", 1, "cues");
    gorbihesh_list_float(&l, "fade", 4, 1.5);
    if (gorbihesh_list_end(&l) != GORBIHESH_LIST_DONE) return 1;
    return fwrite(bytes, 1, l.length, stdout) == l.length && fflush(stdout) == 0 ? 0 : 1;
}
