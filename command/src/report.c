/* What night and check print alike. */
#include "report.h"

#include "print.h"
#include "status.h"

enum { SHOWN_MOST = 8, LINE_MOST = 78, BEFORE_MOST = 40, BEHIND_MOST = 24 };

/* How many of a list are shown: not all but one. */
static size_t count_shown(size_t count, int want_all) {
    return want_all || count <= SHOWN_MOST + 1 ? count : SHOWN_MOST;
}

static void report_rest(size_t count, size_t shown, int width) {
    if (shown == count) return;
    printf("    %*s  and ", width, "");
    print_number(stdout, count - shown, 0);
    puts(" more (-a shows all)");
}

void report_catalogue(const site *s) {
    uint64_t bytes = 0;
    for (size_t i = 0; i < s->tree.count; i++) bytes = sum_of(bytes, s->tree.at[i].size);
    fputs("catalogue: ", stdout);
    print_total(stdout, s->tree.count, bytes);
    fputs(", in ", stdout);
    print_count(stdout, s->catalogue.count, "list");
    putchar('\n');
}

size_t report_head(const job *j) {
    int column = 0;
    putchar('\n');
    if (j->name != NULL) column += printf("%s ", j->name);
    if (j->line > 0) column += printf(j->name != NULL ? "(line %zu): " : "line %zu: ", j->line);
    print_typed(stdout, j->selector, j->length);
    putchar('\n');
    return (size_t)column;
}

static void report_caret(size_t column) { printf("%*s^\n", (int)column, ""); }

/* What stands before and behind the place, on a line of its own. */
static void report_around(const job *j, size_t place) {
    static const char indent[] = "    ", cut[] = "...";
    size_t from = place > BEFORE_MOST ? place - BEFORE_MOST : 0;
    size_t to = j->length - place > BEHIND_MOST ? place + BEHIND_MOST : j->length;
    printf("%s%s", indent, from > 0 ? cut : "");
    print_typed(stdout, j->selector + from, to - from);
    puts(to < j->length ? cut : "");
    report_caret(strlen(indent) + (from > 0 ? strlen(cut) : 0) + width_of_typed(j->selector + from, place - from));
}

static void report_place(const result *r, size_t column) {
    const job *j = r->job;
    if (r->refusal < GORBIHESH_OPEN_QUOTE || r->refusal > GORBIHESH_LONG_NUMERAL || r->place > j->length) return;
    if (column + width_of_typed(j->selector, j->length) > LINE_MOST) report_around(j, r->place);
    else report_caret(column + width_of_typed(j->selector, r->place));
}

void report_refusal(const result *r, size_t column) {
    report_place(r, column);
    if (r->refusal != 0) printf("  refused, %u: %s\n", (unsigned)r->refusal, r->why);
    else printf("  refused: %s\n", r->why);
}

void report_picks(const result *r) {
    if (r->picks_none_ever) {
        puts("  picks nothing and never could: it has no word to look for, or only words to leave out "
             "(+all:files before these picks the rest)");
        return;
    }
    fputs("  picks ", stdout);
    print_total(stdout, r->picks.count, r->picks.bytes);
    putchar('\n');
}

void report_files(const site *s, const picks *p, int want_all) {
    size_t shown = count_shown(p->count, want_all);
    int width = 0;
    for (size_t i = 0; i < shown; i++) {
        int needed = width_of(s->tree.at[p->at[i]].size);
        if (needed > width) width = needed;
    }
    for (size_t i = 0; i < shown; i++) {
        const file *f = &s->tree.at[p->at[i]];
        fputs("    ", stdout);
        print_number(stdout, f->size, width);
        fputs("  ", stdout);
        print_name(stdout, f->path);
        putchar('\n');
    }
    report_rest(p->count, shown, width);
}

static void report_not_followed(const notices *n, int want_all) {
    size_t shown = count_shown(n->count, want_all);
    if (n->count == 0) return;
    fputs("\nnot followed, of links, pipes, devices and sockets: ", stdout);
    print_number(stdout, n->count, 0);
    putchar('\n');
    for (size_t i = 0; i < shown; i++) {
        printf("    %-6s  ", n->at[i].what);
        print_name(stdout, n->at[i].path);
        putchar('\n');
    }
    report_rest(n->count, shown, 6);
}

void report_left_out(const site *s, int want_all) {
    const notices *left_out = &s->tree.left_out;
    report_not_followed(&s->tree.not_followed, want_all);
    fflush(stdout);
    for (size_t i = 0; i < left_out->count; i++) {
        fprintf(stderr, "gorbihesh: %s left out, ", left_out->at[i].what);
        print_name(stderr, left_out->at[i].path);
        fprintf(stderr, ": %s\n", left_out->at[i].why);
    }
}

static void report_idle_jobs(const site *s) {
    for (size_t i = 0; i < s->sheet->count; i++) {
        const result *r = &s->results[i];
        if (r->why != NULL || r->picks.count > 0) continue;
        if (r->job->name != NULL) printf("the job %s (line %zu) picks nothing\n", r->job->name, r->job->line);
        else puts("the selector picks nothing");
    }
}

void report_end(const site *s, int status) {
    size_t refused = count_refused(s), left_out = s->tree.left_out.count;
    if (status == ALL_WELL) return;
    putchar('\n');
    if (refused > 0) printf("%zu of %zu jobs refused; a refused job picks nothing\n", refused, s->sheet->count);
    if (s->sheet->count == 0) puts("the sheet has no job: nothing is kept");
    if (s->tree.count == 0) puts("the directory has no file: nothing is kept");
    report_idle_jobs(s);
    if (left_out > 0) printf("%zu left out of the catalogue, named on stderr\n", left_out);
    printf("status %d: %s\n", status, status_words(status));
}
