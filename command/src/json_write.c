/* Writes JSON. */
#include "json_write.h"

#include "print.h"

#include <inttypes.h>

/* What stands before a member, an item or a closing bracket. */
static void begin_line(const json_writer *w) {
    if (w->depth == 0) return;
    if (w->flat > 0 && w->depth >= w->flat) {
        if (!w->is_first) putc(' ', w->to);
        return;
    }
    fprintf(w->to, "\n%*s", 2 * w->depth, "");
}

static void begin_value(json_writer *w, const char *key) {
    if (!w->is_first && w->depth > 0) putc(',', w->to);
    begin_line(w);
    w->is_first = 0;
    if (key != NULL) fprintf(w->to, "\"%s\": ", key);
}

void write_open(json_writer *w, const char *key, char bracket) {
    begin_value(w, key);
    putc(bracket, w->to);
    w->depth++;
    w->is_first = 1;
}

void write_open_flat(json_writer *w, const char *key, char bracket) {
    write_open(w, key, bracket);
    w->flat = w->depth;
}

void write_close(json_writer *w, char bracket) {
    int is_flat = w->flat > 0 && w->depth >= w->flat;
    if (w->depth == w->flat) w->flat = 0;
    w->depth--;
    if (!is_flat && !w->is_first) fprintf(w->to, "\n%*s", 2 * w->depth, "");
    putc(bracket, w->to);
    w->is_first = 0;
    if (w->depth == 0) putc('\n', w->to);
}

void write_text(json_writer *w, const char *key, const char *text, size_t length) {
    begin_value(w, key);
    putc('"', w->to);
    print_quotable(w->to, text, length);
    putc('"', w->to);
}

void write_name(json_writer *w, const char *key, const char *name) {
    begin_value(w, key);
    putc('"', w->to);
    print_name(w->to, name);
    putc('"', w->to);
}

void write_number(json_writer *w, const char *key, uint64_t n) {
    begin_value(w, key);
    fprintf(w->to, "%" PRIu64, n);
}

void write_null(json_writer *w, const char *key) {
    begin_value(w, key);
    fputs("null", w->to);
}
