/* Writes the record of a night, and the list for the copy that follows. */
#define _XOPEN_SOURCE 700 /* realpath, gmtime_r */
#include "record.h"

#include "json_write.h"
#include "memory.h"
#include "output.h"
#include "status.h"

#include <inttypes.h>
#include <stdlib.h>
#include <time.h>

enum { SECONDS_A_DAY = 86400, DAYS_MOST = 100000000, DATE_MOST = 64 };

static void write_string(json_writer *w, const char *key, const char *text) { write_text(w, key, text, strlen(text)); }

static void write_date(json_writer *w) {
    char date[DATE_MOST];
    time_t now = time(NULL);
    struct tm parts;
    gmtime_r(&now, &parts);
    strftime(date, sizeof date, "%Y-%m-%dT%H:%M:%SZ", &parts);
    write_string(w, "date", date);
}

/* A day that no calendar reaches is told by its number. */
static void write_day(json_writer *w, int64_t day) {
    char date[DATE_MOST];
    int is_far = day > DAYS_MOST || day < -DAYS_MOST;
    time_t seconds = is_far ? 0 : (time_t)(day * SECONDS_A_DAY);
    struct tm parts;
    if (is_far || gmtime_r(&seconds, &parts) == NULL || strftime(date, sizeof date, "%Y-%m-%d", &parts) == 0)
        snprintf(date, sizeof date, "day %" PRId64, day);
    write_string(w, "changed", date);
}

/* Where the directory is, whatever folder the command was started in. */
static void write_directory(json_writer *w, const char *directory) {
    char *full = realpath(directory, NULL);
    write_name(w, "directory", full != NULL ? full : directory);
    free(full);
}

/* Split at each \n, so that lines joined by it are the sheet to the byte. */
static void write_sheet(json_writer *w, const whole *text) {
    const char *from = text->bytes, *end = text->bytes + text->length;
    write_open(w, "lines", '[');
    for (;;) {
        const char *to = memchr(from, '\n', (size_t)(end - from));
        write_text(w, NULL, from, (size_t)((to == NULL ? end : to) - from));
        if (to == NULL) break;
        from = to + 1;
    }
    write_close(w, ']');
}

static void write_files(json_writer *w, const char *key, const tree *t, const picks *p) {
    write_number(w, "files", p->count);
    write_number(w, "bytes", p->bytes);
    write_open(w, key, '[');
    for (size_t i = 0; i < p->count; i++) {
        const file *f = &t->at[p->at[i]];
        write_open_flat(w, NULL, '{');
        write_name(w, "path", f->path);
        write_number(w, "size", f->size);
        write_day(w, f->day);
        write_close(w, '}');
    }
    write_close(w, ']');
}

static void write_job(json_writer *w, const job *j) {
    if (j->name != NULL) write_string(w, "name", j->name);
    else write_null(w, "name");
    write_number(w, "line", j->line);
    write_text(w, "selector", j->selector, j->length);
}

static void write_jobs(json_writer *w, const site *s) {
    write_open(w, "jobs", '[');
    for (size_t i = 0; i < s->sheet->count; i++) {
        const result *r = &s->results[i];
        if (r->why != NULL) continue;
        write_open(w, NULL, '{');
        write_job(w, r->job);
        write_files(w, "picks", &s->tree, &r->picks);
        write_close(w, '}');
    }
    write_close(w, ']');
}

static void write_refused(json_writer *w, const site *s) {
    write_open(w, "refused", '[');
    for (size_t i = 0; i < s->sheet->count; i++) {
        const result *r = &s->results[i];
        if (r->why == NULL) continue;
        write_open(w, NULL, '{');
        write_job(w, r->job);
        if (r->refusal != GORBIHESH_DONE) write_number(w, "refusal", r->refusal);
        else write_null(w, "refusal");
        write_string(w, "why", r->why);
        write_close(w, '}');
    }
    write_close(w, ']');
}

static void write_notices(json_writer *w, const char *key, const notices *n) {
    write_open(w, key, '[');
    for (size_t i = 0; i < n->count; i++) {
        write_open_flat(w, NULL, '{');
        write_name(w, "path", n->at[i].path);
        write_string(w, "what", n->at[i].what);
        write_string(w, "why", n->at[i].why);
        write_close(w, '}');
    }
    write_close(w, ']');
}

static void write_head(json_writer *w, const site *s, const char *sheet_path, int status) {
    write_string(w, "record", RECORD_KIND);
    write_number(w, "layout", RECORD_LAYOUT);
    write_string(w, "version", GORBIHESH_VERSION_STRING);
    write_date(w);
    write_directory(w, s->directory);
    write_open(w, "sheet", '{');
    write_name(w, "path", sheet_path);
    write_sheet(w, &s->sheet->text);
    write_close(w, '}');
    write_number(w, "status", (uint64_t)status);
    write_string(w, "means", status_words(status));
}

int write_record_of(const site *s, const char *sheet_path, int status, const char *to) {
    output o;
    if (!open_output(to, &o)) return 0;
    json_writer w = {o.to, 0, 1, 0};
    write_open(&w, NULL, '{');
    write_head(&w, s, sheet_path, status);
    write_jobs(&w, s);
    write_refused(&w, s);
    write_open(&w, "nobody", '{');
    write_files(&w, "picks", &s->tree, &s->nobodys);
    write_close(&w, '}');
    write_notices(&w, "left_out", &s->tree.left_out);
    write_notices(&w, "not_followed", &s->tree.not_followed);
    write_close(&w, '}');
    return close_output(&o);
}

/* Those that are not among nobody's; both rise. */
int write_files_from0(const site *s, const char *to) {
    output o;
    size_t next = 0;
    if (!open_output(to, &o)) return 0;
    for (size_t i = 0; i < s->tree.count; i++) {
        if (next < s->nobodys.count && s->nobodys.at[next] == i) {
            next++;
            continue;
        }
        fputs(s->tree.at[i].path, o.to);
        putc(0, o.to);
    }
    return close_output(&o);
}
