/* The job sheet: a line `name: selector` for each job. Blank lines and lines that begin with # are left out, and so is
 * a byte order mark. A name has letters, digits, - and _; it is no field of the catalogue, and no other job has it,
 * whatever its capitals.
 */
#ifndef SHEET_H
#define SHEET_H

#include "whole.h"

typedef struct {
    size_t line; /* counted from 1; 0 for a selector that stands in no sheet */
    char *name;  /* NULL where the line has none: `selector` is then the whole line */
    char *selector;
    size_t length; /* of the selector, which may hold any byte */
    char *fault;   /* why the line is no job, or NULL */
} job;

typedef struct {
    whole text; /* as it was */
    job *at;
    size_t count, places;
} sheet;

/* False where the file cannot be read, which is told on stderr. */
int read_sheet(const char *path, sheet *s);

/* One job without a name. */
void make_sheet_of(const char *selector, sheet *s);

void free_sheet(sheet *s);

#endif
