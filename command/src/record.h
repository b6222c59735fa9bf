/* The record of a night, which the restore desk reads a year later: JSON, one object. And the list of picked files for
 * the copy that follows. command/README.md says what each member of the record holds.
 */
#ifndef RECORD_H
#define RECORD_H

#include "jobs.h"

#define RECORD_KIND "gorbihesh night" /* the member `record` */
enum { RECORD_LAYOUT = 1 };           /* the member `layout`; another layout has another number */

/* Each is false where the file cannot be written, which is told on stderr. */
int write_record_of(const site *s, const char *sheet_path, int status, const char *to);

/* The paths that some job picks, each with a NUL behind it: for rsync --from0 --files-from. */
int write_files_from0(const site *s, const char *to);

#endif
