/* Reads the job sheet. */
#include "sheet.h"

#include "catalogue.h"
#include "memory.h"
#include "names.h"

#include <stdio.h>
#include <stdlib.h>
#include <string.h>

enum { FAULT_MOST = 200 };

static const char byte_order_mark[] = "\xEF\xBB\xBF";

/* Bytes of the sheet. */
typedef struct {
    const char *from, *to;
} stretch;

static int is_blank(char c) { return c == ' ' || (c >= '\t' && c <= '\r'); }

/* Whether a \ takes the last byte as it is: an odd number of them stands before it. */
static int is_last_escaped(stretch s) {
    size_t count = 0;
    for (const char *at = s.to - 1; at > s.from && at[-1] == '\\'; at--) count++;
    return count % 2 == 1;
}

/* Without blanks around it; an escaped blank at the end stays. */
static stretch trimmed(stretch s) {
    while (s.from < s.to && is_blank(*s.from)) s.from++;
    while (s.from < s.to && is_blank(s.to[-1]) && !is_last_escaped(s)) s.to--;
    return s;
}

static char *copy_of_stretch(stretch s) { return copy_of(s.from, (size_t)(s.to - s.from)); }

static int is_name(const char *name) {
    for (const char *at = name; *at != 0; at++)
        if (!is_letter((unsigned char)*at) && !(*at >= '0' && *at <= '9') && *at != '-' && *at != '_') return 0;
    return 1;
}

static const job *job_named(const sheet *s, const char *name) {
    for (size_t i = 0; i < s->count; i++)
        if (s->at[i].name != NULL && are_same_but_for_capitals(s->at[i].name, name)) return &s->at[i];
    return NULL;
}

/* The name before the first colon, or NULL and why there is none. The selector has colons of its own. */
static char *name_of_line(stretch line, const char *colon, char why[FAULT_MOST]) {
    stretch before = {line.from, colon == NULL ? line.from : colon};
    before = trimmed(before);
    if (before.from == before.to) {
        snprintf(why, FAULT_MOST, "a line reads `name: selector`");
        return NULL;
    }
    char *name = copy_of_stretch(before);
    if (strlen(name) != (size_t)(before.to - before.from) || !is_name(name))
        snprintf(why, FAULT_MOST, "a job's name before the colon has letters, digits, - and _ alone");
    else if (is_field(name))
        snprintf(why, FAULT_MOST,
                 "`%s` is a field of the catalogue: write a job's name and a colon before the selector", name);
    else
        return name;
    free(name);
    return NULL;
}

static void add_line(sheet *s, stretch line, size_t number) {
    char why[FAULT_MOST] = "";
    line = trimmed(line);
    if (line.from == line.to || *line.from == '#') return;
    const char *colon = memchr(line.from, ':', (size_t)(line.to - line.from));
    job j = {number, name_of_line(line, colon, why), NULL, 0, NULL};
    const job *other = j.name == NULL ? NULL : job_named(s, j.name);
    if (other != NULL) snprintf(why, sizeof why, "line %zu has a job of this name", other->line);
    if (j.name != NULL) line.from = colon + 1;
    line = trimmed(line);
    j.selector = copy_of_stretch(line);
    j.length = (size_t)(line.to - line.from);
    if (why[0] != 0) j.fault = copy_of(why, strlen(why));
    s->at = with_place(s->at, s->count, &s->places, sizeof *s->at);
    s->at[s->count++] = j;
}

/* A line ends at \n, or at \r\n. */
static void add_lines(sheet *s, stretch text) {
    for (size_t number = 1; text.from < text.to; number++) {
        const char *end = memchr(text.from, '\n', (size_t)(text.to - text.from));
        stretch line = {text.from, end == NULL ? text.to : end};
        text.from = end == NULL ? text.to : end + 1;
        if (line.from < line.to && line.to[-1] == '\r') line.to--;
        add_line(s, line, number);
    }
}

int read_sheet(const char *path, sheet *s) {
    memset(s, 0, sizeof *s);
    if (!read_whole("the sheet ", path, &s->text)) return 0;
    stretch text = {s->text.bytes, s->text.bytes + s->text.length};
    if (strncmp(text.from, byte_order_mark, strlen(byte_order_mark)) == 0) text.from += strlen(byte_order_mark);
    add_lines(s, text);
    return 1;
}

void make_sheet_of(const char *selector, sheet *s) {
    memset(s, 0, sizeof *s);
    s->at = with_place(s->at, s->count, &s->places, sizeof *s->at);
    s->at[s->count++] = (job){0, NULL, copy_of(selector, strlen(selector)), strlen(selector), NULL};
}

void free_sheet(sheet *s) {
    for (size_t i = 0; i < s->count; i++) {
        free(s->at[i].name);
        free(s->at[i].selector);
        free(s->at[i].fault);
    }
    free(s->at);
    free_whole(&s->text);
}
