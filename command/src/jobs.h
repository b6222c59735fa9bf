/* The jobs of a sheet run over a directory: what night prints and records, and what check looks at. */
#ifndef JOBS_H
#define JOBS_H

#include "selector.h"
#include "sheet.h"

typedef struct {
    const job *job;
    uint32_t refusal;     /* of its selector, or 0 */
    size_t place;         /* of the selector's fault, by the bytes before it */
    const char *why;      /* it was refused, in words; NULL where it was run */
    int picks_none_ever;  /* whatever the catalogue holds */
    picks picks;
} result;

typedef struct {
    const char *directory;
    const sheet *sheet;
    tree tree;
    catalogue catalogue;
    desk desk;
    result *results; /* one for each job of the sheet */
    picks nobodys;   /* the files that no job picks */
} site;

/* Walks and catalogues the directory. False where it cannot be read, which is told on stderr. */
int open_site(site *s, const char *directory, const sheet *jobs);

/* Runs the jobs, and finds what nobody picks. */
void run_jobs(site *s);

/* The exit status that the jobs and the directory come to. */
int status_of(const site *s);

size_t count_refused(const site *s);

void close_site(site *s);

#endif
