/* Reads the record of a night and finds out what became of one path. */
#ifndef ASK_H
#define ASK_H

#include <stddef.h>
#include <stdint.h>

/* A job as the record has it: one that was run has picks, one that was refused has a `why`. */
typedef struct {
    char *name; /* or NULL */
    uint64_t line;
    char *selector;
    size_t length;
    char *why;
    int has_picks, is_picked; /* whether the path that is asked for is one of them */
} recorded_job;

typedef struct {
    recorded_job *at;
    size_t count, places;
} recorded_jobs;

typedef struct {
    const char *form; /* of the path that is asked for */
    char *date, *directory, *version;
    int is_file;      /* of the catalogue; then its size, the day of its last change and the jobs that picked it: */
    uint64_t size;
    char *changed;
    recorded_jobs picked_by;
    size_t below;     /* how often a file below it stands in the record: it is a folder */
    char *out, *out_what, *out_why; /* the path that was left out: this one, or a folder around it; or NULL */
    recorded_jobs refused;
    unsigned seen;    /* which members of the record were there */
} inquiry;

/* Looks for a path by its form. False where the text is no record of a night; all of it is read before anything is
 * said.
 */
int ask_record(const char *text, size_t length, const char *form, inquiry *q);

void free_inquiry(inquiry *q);

#endif
