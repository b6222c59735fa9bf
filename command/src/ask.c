/* Reads the record of a night and finds out what became of one path. */
#include "ask.h"

#include "json_read.h"
#include "memory.h"
#include "record.h"

#include <stdlib.h>
#include <string.h>

/* The members that a record must have. */
enum {
    DATE = 1,
    DIRECTORY = 2,
    VERSION = 4,
    JOBS = 8,
    REFUSALS = 16,
    NOBODY = 32,
    OUT = 64,
    UNFOLLOWED = 128,
    LAYOUT = 256,
    KIND_OF_RECORD = 512,
    EVERY_MEMBER = 1023
};

static void keep(char **place, char *text) {
    free(*place);
    *place = text;
}

/* Whether `path` lies in the folder. */
static int lies_in(const char *path, const char *folder) {
    size_t length = strlen(folder);
    return strncmp(path, folder, length) == 0 && path[length] == '/';
}

/* One file of a list of picks: whether it is the one that is asked for. */
static int ask_file(json_reader *j, inquiry *q) {
    char *path = NULL, *changed = NULL;
    uint64_t size = 0;
    json_opens(j, '{');
    while (json_has_more(j, '}')) {
        char *key = json_key(j);
        if (strcmp(key, "path") == 0) keep(&path, json_text(j, NULL));
        else if (strcmp(key, "changed") == 0) keep(&changed, json_text(j, NULL));
        else if (strcmp(key, "size") == 0) size = json_number(j);
        else json_skip(j);
        free(key);
    }
    if (path == NULL || changed == NULL) j->is_sound = 0;
    int is_asked = j->is_sound && strcmp(path, q->form) == 0;
    if (j->is_sound && lies_in(path, q->form)) q->below++;
    if (is_asked) {
        q->is_file = 1;
        q->size = size;
        keep(&q->changed, changed);
    } else {
        free(changed);
    }
    free(path);
    return is_asked;
}

static void ask_picks(json_reader *j, inquiry *q, recorded_job *r) {
    r->has_picks = 1;
    json_opens(j, '[');
    while (json_has_more(j, ']')) r->is_picked |= ask_file(j, q);
}

static void free_job(recorded_job *r) {
    free(r->name);
    free(r->selector);
    free(r->why);
}

static void add_job(recorded_jobs *row, recorded_job r) {
    row->at = with_place(row->at, row->count, &row->places, sizeof *row->at);
    row->at[row->count++] = r;
}

/* One object of `jobs`, of `refused`, or `nobody`. */
static recorded_job ask_job(json_reader *j, inquiry *q) {
    recorded_job r = {NULL, 0, NULL, 0, NULL, 0, 0};
    json_opens(j, '{');
    while (json_has_more(j, '}')) {
        char *key = json_key(j);
        if (strcmp(key, "name") == 0) keep(&r.name, json_text_or_null(j));
        else if (strcmp(key, "line") == 0) r.line = json_number(j);
        else if (strcmp(key, "selector") == 0) keep(&r.selector, json_text(j, &r.length));
        else if (strcmp(key, "why") == 0) keep(&r.why, json_text(j, NULL));
        else if (strcmp(key, "picks") == 0) ask_picks(j, q, &r);
        else json_skip(j);
        free(key);
    }
    return r;
}

/* Of the jobs that were run, those that picked the path. */
static void ask_jobs(json_reader *j, inquiry *q) {
    json_opens(j, '[');
    while (json_has_more(j, ']')) {
        recorded_job r = ask_job(j, q);
        if (r.selector == NULL || !r.has_picks) j->is_sound = 0;
        if (j->is_sound && r.is_picked) add_job(&q->picked_by, r);
        else free_job(&r);
    }
}

static void ask_refused(json_reader *j, inquiry *q) {
    json_opens(j, '[');
    while (json_has_more(j, ']')) {
        recorded_job r = ask_job(j, q);
        if (r.selector == NULL || r.why == NULL) j->is_sound = 0;
        if (j->is_sound) add_job(&q->refused, r);
        else free_job(&r);
    }
}

static void ask_nobody(json_reader *j, inquiry *q) {
    recorded_job nobody = ask_job(j, q);
    if (!nobody.has_picks) j->is_sound = 0;
    free_job(&nobody);
}

/* The path itself, or a folder around it, if it was left out or not followed. */
static void ask_notice(json_reader *j, inquiry *q) {
    char *path = NULL, *what = NULL, *why = NULL;
    json_opens(j, '{');
    while (json_has_more(j, '}')) {
        char *key = json_key(j);
        if (strcmp(key, "path") == 0) keep(&path, json_text(j, NULL));
        else if (strcmp(key, "what") == 0) keep(&what, json_text(j, NULL));
        else if (strcmp(key, "why") == 0) keep(&why, json_text(j, NULL));
        else json_skip(j);
        free(key);
    }
    if (path == NULL || what == NULL || why == NULL) j->is_sound = 0;
    if (j->is_sound && (strcmp(path, q->form) == 0 || lies_in(q->form, path))) {
        keep(&q->out, path);
        keep(&q->out_what, what);
        keep(&q->out_why, why);
        return;
    }
    free(path);
    free(what);
    free(why);
}

static void ask_notices(json_reader *j, inquiry *q) {
    json_opens(j, '[');
    while (json_has_more(j, ']')) ask_notice(j, q);
}

/* Whether the member `record` says that this is one. */
static unsigned ask_kind(json_reader *j) {
    char *kind = json_text(j, NULL);
    unsigned seen = strcmp(kind, RECORD_KIND) == 0 ? KIND_OF_RECORD : 0;
    free(kind);
    return seen;
}

/* Which member it is, or 0. */
static unsigned ask_member(json_reader *j, inquiry *q, const char *key) {
    if (strcmp(key, "record") == 0) return ask_kind(j);
    if (strcmp(key, "layout") == 0) return json_number(j) == RECORD_LAYOUT ? LAYOUT : 0;
    if (strcmp(key, "date") == 0) return keep(&q->date, json_text(j, NULL)), DATE;
    if (strcmp(key, "directory") == 0) return keep(&q->directory, json_text(j, NULL)), DIRECTORY;
    if (strcmp(key, "version") == 0) return keep(&q->version, json_text(j, NULL)), VERSION;
    if (strcmp(key, "jobs") == 0) return ask_jobs(j, q), JOBS;
    if (strcmp(key, "refused") == 0) return ask_refused(j, q), REFUSALS;
    if (strcmp(key, "nobody") == 0) return ask_nobody(j, q), NOBODY;
    if (strcmp(key, "left_out") == 0) return ask_notices(j, q), OUT;
    if (strcmp(key, "not_followed") == 0) return ask_notices(j, q), UNFOLLOWED;
    json_skip(j);
    return 0;
}

int ask_record(const char *text, size_t length, const char *form, inquiry *q) {
    json_reader j = start_json(text, length);
    memset(q, 0, sizeof *q);
    q->form = form;
    json_opens(&j, '{');
    while (json_has_more(&j, '}')) {
        char *key = json_key(&j);
        q->seen |= ask_member(&j, q, key);
        free(key);
    }
    return json_ends(&j) && q->seen == EVERY_MEMBER;
}

static void free_jobs(recorded_jobs *row) {
    for (size_t i = 0; i < row->count; i++) free_job(&row->at[i]);
    free(row->at);
}

void free_inquiry(inquiry *q) {
    free(q->date);
    free(q->directory);
    free(q->version);
    free(q->changed);
    free(q->out);
    free(q->out_what);
    free(q->out_why);
    free_jobs(&q->picked_by);
    free_jobs(&q->refused);
}
