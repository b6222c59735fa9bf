/* gorbihesh check SHEET DIRECTORY: each selector as it is read, clause by clause, with how many files each clause
 * picks by itself, and what looks like a mistake.
 */
#include "look.h"
#include "options.h"
#include "print.h"
#include "report.h"
#include "status.h"

enum { STEP = 2 }; /* blanks for each bracket that a clause lies in */

/* A selector that is looked at: `found` is what has been pointed out so far. */
typedef struct {
    desk *desk;
    int width; /* of the greatest count */
    size_t found;
} checker;

/* How a clause counts: it must be, it must not be, any such clause is enough, or, beside a must, it changes nothing. */
static const char entire[] = "whole", must[] = "must", not[] = "not", any[] = "any", idle[] = "idle";

static const char *label_of(part boolean, int kind) {
    if (kind == GORBIHESH_MUST_TAG) return must;
    if (kind == GORBIHESH_MUST_NOT_TAG) return not;
    return count_clauses(boolean, GORBIHESH_MUST_TAG) > 0 ? idle : any;
}

static void point_out(checker *c, const char *what) {
    c->found++;
    printf("   <- %s", what);
}

/* Whether a query has nothing but clauses to leave out. */
static int only_leaves_out(part query) {
    query = without_boost(query);
    return query.tag == GORBIHESH_BOOLEAN_TAG && count_clauses(query, GORBIHESH_MUST_TAG) == 0 &&
           count_clauses(query, GORBIHESH_SHOULD_TAG) == 0;
}

static void point_at_clause(checker *c, const char *label, part query, size_t files) {
    if (label == idle) point_out(c, "changes nothing beside a clause that must be: brackets part them");
    if (only_leaves_out(query))
        point_out(c, "only leaves out, so it picks nothing: +all:files before it picks the rest");
    else if (files == 0)
        point_out(c, label == not ? "leaves out nothing" : "picks nothing");
}

/* A line for one query, counted by itself. */
static void show_clause(checker *c, const char *label, part query, int depth) {
    picks p;
    pick_by(c->desk, query.at, query.length, &p);
    fputs("    ", stdout);
    print_number(stdout, p.count, c->width);
    printf(p.count == 1 ? " file   %*s%-5s  " : " files  %*s%-5s  ", STEP * depth, "", label);
    if (label == entire) print_query(stdout, query);
    else print_clause(stdout, query);
    point_at_clause(c, label, query, p.count);
    putchar('\n');
    free_picks(&p);
}

/* The clauses of a Boolean, and below each those of its brackets. */
static void show_clauses(checker *c, part query, int depth) {
    query = without_boost(query);
    if (query.tag != GORBIHESH_BOOLEAN_TAG) return;
    for (part clause = first_clause(query);; clause = part_at(clause.end)) {
        show_clause(c, label_of(query, clause.tag), query_of(clause), depth);
        show_clauses(c, query_of(clause), depth + 1);
        if (clause.end == query.end) return;
    }
}

/* The whole selector first, then its clauses, then its text. */
static size_t check_selector(site *s, const result *r) {
    checker c = {&s->desk, width_of(s->tree.count), 0};
    const job *j = r->job;
    read_selector(&s->desk, default_field, strlen(default_field), j->selector, j->length);
    show_clause(&c, entire, part_at(s->desk.parsed), 0);
    show_clauses(&c, part_at(s->desk.parsed), 1);
    return c.found + look_at_text(&s->desk, j->selector, j->length);
}

static int check_job(site *s, const result *r) {
    size_t column = report_head(r->job);
    if (r->why != NULL) {
        report_refusal(r, column);
        return ALL_WELL;
    }
    return check_selector(s, r) > 0 ? POINTED_OUT : ALL_WELL;
}

static int check_over(const char *directory, const sheet *jobs, int want_all) {
    site s;
    int status = ALL_WELL;
    if (!open_site(&s, directory, jobs)) return CANNOT_READ;
    run_jobs(&s);
    report_catalogue(&s);
    for (size_t i = 0; i < jobs->count; i++) status = also(status, check_job(&s, &s.results[i]));
    report_left_out(&s, want_all);
    status = also(status, status_of(&s));
    report_end(&s, status);
    close_site(&s);
    return status;
}

int run_check(const options *o) {
    sheet jobs;
    if (o->selector != NULL) make_sheet_of(o->selector, &jobs);
    else if (!read_sheet(o->operands[0], &jobs)) return CANNOT_READ;
    int status = check_over(o->operands[o->selector == NULL], &jobs, o->want_all);
    free_sheet(&jobs);
    return status;
}
