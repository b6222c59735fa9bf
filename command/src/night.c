/* gorbihesh night DIRECTORY SHEET: what each job of the sheet picks, and what nobody picks. Copies nothing. */
#include "options.h"
#include "print.h"
#include "record.h"
#include "report.h"
#include "status.h"

static void report_job(const site *s, const result *r, int want_all) {
    size_t column = report_head(r->job);
    if (r->why != NULL) {
        report_refusal(r, column);
        return;
    }
    report_picks(r);
    report_files(s, &r->picks, want_all);
}

static void report_nobodys(const site *s, int want_all) {
    fputs("\nnobody picks ", stdout);
    print_total(stdout, s->nobodys.count, s->nobodys.bytes);
    putchar('\n');
    report_files(s, &s->nobodys, want_all);
}

/* The list for the copy comes last: where the record of it cannot be written, there is none. */
static int write_files(const options *o, const site *s, int status) {
    if (o->record != NULL && !write_record_of(s, o->operands[1], status, o->record)) return CANNOT_WRITE;
    if (o->files_from0 != NULL && !write_files_from0(s, o->files_from0)) return CANNOT_WRITE;
    return status;
}

/* Files are written before anything is printed: a reader of the output that goes away must not cost the record. */
static int run_over(const options *o, const sheet *jobs) {
    site s;
    if (!open_site(&s, o->operands[0], jobs)) return CANNOT_READ;
    run_jobs(&s);
    int status = write_files(o, &s, status_of(&s));
    report_catalogue(&s);
    for (size_t i = 0; i < jobs->count; i++) report_job(&s, &s.results[i], o->want_all);
    report_nobodys(&s, o->want_all);
    report_left_out(&s, o->want_all);
    report_end(&s, status);
    close_site(&s);
    return status;
}

int run_night(const options *o) {
    sheet jobs;
    if (!read_sheet(o->operands[1], &jobs)) return CANNOT_READ;
    int status = run_over(o, &jobs);
    free_sheet(&jobs);
    return status;
}
