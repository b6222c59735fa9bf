/* What night and check print alike, on stdout. */
#ifndef REPORT_H
#define REPORT_H

#include "jobs.h"

/* How many files, bytes and lists. */
void report_catalogue(const site *s);

/* A job's name, line and selector; answers the column that the selector begins at. */
size_t report_head(const job *j);

/* Why it was refused. A fault of the selector has a caret under its place: below the selector, which begins at this
 * column of the line before; where that line is long, below what stands around the place.
 */
void report_refusal(const result *r, size_t column);

/* How many files and bytes it picks, or that it never could pick any. */
void report_picks(const result *r);

/* Files by name; the first few of them unless all are wanted. */
void report_files(const site *s, const picks *p, int want_all);

/* What is not in the catalogue: links and the like on stdout, the first few unless all are wanted; what could not be
 * read on stderr.
 */
void report_left_out(const site *s, int want_all);

/* Jobs refused, jobs that pick nothing, nothing to do at all: a line for each that applies; and the status in words,
 * where it is not ALL_WELL.
 */
void report_end(const site *s, int status);

#endif
