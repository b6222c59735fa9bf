/* gorbihesh why RECORD PATH: which jobs of that night picked a file, or that none did, or why it was not in the
 * catalogue.
 */
#include "ask.h"
#include "memory.h"
#include "names.h"
#include "options.h"
#include "print.h"
#include "status.h"
#include "whole.h"

#include <stdlib.h>
#include <string.h>

/* Texts of a record are forms already. */
static void print_form(const char *form) { print_quotable(stdout, form, strlen(form)); }

static void print_job(const recorded_job *r) {
    fputs("  ", stdout);
    if (r->name != NULL) printf("%s ", r->name);
    printf(r->name != NULL ? "(line %zu): " : "line %zu: ", (size_t)r->line);
    print_typed(stdout, r->selector, r->length);
    putchar('\n');
    if (r->why != NULL) printf("    %s\n", r->why);
}

static void print_jobs(const char *head, const recorded_jobs *row) {
    if (row->count == 0) return;
    puts(head);
    for (size_t i = 0; i < row->count; i++) print_job(&row->at[i]);
}

static int tell_file(const inquiry *q) {
    fputs("  a file of ", stdout);
    print_count(stdout, q->size, "byte");
    printf(", last changed %s\n", q->changed);
    print_jobs("picked by", &q->picked_by);
    if (q->picked_by.count > 0) return ALL_WELL;
    puts("no job picked it");
    print_jobs("refused that night:", &q->refused);
    return NOBODY_PICKED;
}

static int tell_missing(const inquiry *q) {
    fputs("not in the catalogue: ", stdout);
    if (q->out == NULL) {
        puts(q->below > 0 ? "it was a folder; ask for a file in it" : "the directory had no file of this path");
        return NOT_CATALOGUED;
    }
    if (strcmp(q->out, q->form) != 0) {
        fputs("it lies below ", stdout);
        print_form(q->out);
        fputs(", a ", stdout);
    } else {
        fputs("a ", stdout);
    }
    printf("%s that was left out: %s\n", q->out_what, q->out_why);
    return NOT_CATALOGUED;
}

static int tell(const inquiry *q) {
    print_form(q->form);
    fputs("\n  on the night of ", stdout);
    fputs(q->date, stdout);
    fputs(", in ", stdout);
    print_form(q->directory);
    putchar('\n');
    return q->is_file ? tell_file(q) : tell_missing(q);
}

/* A path that begins with the record's directory, or with ./, is meant below it. */
static const char *path_below(const char *form, const char *directory) {
    size_t length = strlen(directory);
    if (length > 0 && strncmp(form, directory, length) == 0 && form[length] == '/') return form + length + 1;
    return strncmp(form, "./", 2) == 0 ? form + 2 : form;
}

/* Asks for a path, first of all to know the directory, and then below it. */
static int ask_below(const whole *record, const char *form, inquiry *q) {
    if (!ask_record(record->bytes, record->length, form, q)) return 0;
    const char *below = path_below(form, q->directory);
    if (below == form) return 1;
    free_inquiry(q);
    return ask_record(record->bytes, record->length, below, q);
}

static int is_known(const inquiry *q) { return q->is_file || q->out != NULL || q->below > 0; }

/* Asks for one reading of the path, and tells what was found: always, or only where the record knows it. The status, or
 * CANNOT_READ where it is no record, or -1 where nothing was told.
 */
static int ask_and_tell(const whole *record, const char *form, int always) {
    inquiry q;
    int status = -1;
    if (!ask_below(record, form, &q)) status = CANNOT_READ;
    else if (always || is_known(&q)) status = tell(&q);
    free_inquiry(&q);
    return status;
}

/* As the file system has the path; where the record does not know it, as it is printed; and if neither is known, as the
 * file system has it.
 */
static int ask_both_ways(const whole *record, const char *path) {
    char *name = name_of(path), *form = form_of(path), *printed = form_of(name);
    int status = ask_and_tell(record, form, 0);
    if (status < 0) status = ask_and_tell(record, printed, 0);
    if (status < 0) status = ask_and_tell(record, form, 1);
    free(name);
    free(form);
    free(printed);
    return status;
}

/* A folder's name may have been typed with / behind it. */
static char *without_slashes(const char *path) {
    size_t length = strlen(path);
    while (length > 0 && path[length - 1] == '/') length--;
    return copy_of(path, length);
}

int run_why(const options *o) {
    whole record;
    if (!read_whole("the record ", o->operands[0], &record)) return CANNOT_READ;
    char *path = without_slashes(o->operands[1]);
    int status = ask_both_ways(&record, path);
    if (status == CANNOT_READ) complain("the record ", o->operands[0], "it is damaged, or no record of a night");
    free(path);
    free_whole(&record);
    return status;
}
