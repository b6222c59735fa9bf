/* Runs the jobs of a sheet over a directory. */
#include "jobs.h"

#include "memory.h"
#include "print.h"
#include "status.h"

#include <stdlib.h>

int open_site(site *s, const char *directory, const sheet *jobs) {
    memset(s, 0, sizeof *s);
    s->directory = directory;
    s->sheet = jobs;
    if (!walk(directory, &s->tree)) {
        complain("the directory ", directory, s->tree.left_out.at[0].why);
        free_tree(&s->tree);
        return 0;
    }
    make_catalogue(&s->tree, &s->catalogue);
    make_desk(&s->desk, &s->tree, &s->catalogue);
    s->results = must_have(calloc(jobs->count + 1, sizeof *s->results));
    return 1;
}

static void run_job(site *s, result *r) {
    const job *j = r->job;
    r->why = j->fault;
    if (j->fault != NULL) return;
    r->refusal = run_selector(&s->desk, j->selector, j->length, &r->picks);
    r->place = s->desk.place;
    if (r->refusal != GORBIHESH_DONE) r->why = gorbihesh_words(r->refusal);
    else r->picks_none_ever = picks_none_ever(&s->desk);
}

static void find_nobodys(site *s) {
    char *is_picked = must_have(calloc(s->tree.count + 1, 1));
    for (size_t i = 0; i < s->sheet->count; i++) {
        const picks *p = &s->results[i].picks;
        for (size_t k = 0; k < p->count; k++) is_picked[p->at[k]] = 1;
    }
    for (size_t i = 0; i < s->tree.count; i++)
        if (!is_picked[i]) add_pick(&s->nobodys, &s->tree, i);
    free(is_picked);
}

void run_jobs(site *s) {
    for (size_t i = 0; i < s->sheet->count; i++) {
        s->results[i].job = &s->sheet->at[i];
        run_job(s, &s->results[i]);
    }
    find_nobodys(s);
}

size_t count_refused(const site *s) {
    size_t count = 0;
    for (size_t i = 0; i < s->sheet->count; i++) count += s->results[i].why != NULL;
    return count;
}

int status_of(const site *s) {
    int status = ALL_WELL;
    if (s->sheet->count == 0) status = also(status, NO_JOB);
    if (s->tree.count == 0) status = also(status, NO_FILE);
    if (s->tree.left_out.count > 0) status = also(status, LEFT_OUT);
    for (size_t i = 0; i < s->sheet->count; i++) {
        const result *r = &s->results[i];
        if (r->why != NULL) status = also(status, REFUSED);
        else if (r->picks.count == 0) status = also(status, PICKS_NOTHING);
    }
    return status;
}

void close_site(site *s) {
    for (size_t i = 0; i < s->sheet->count; i++) free_picks(&s->results[i].picks);
    free(s->results);
    free_picks(&s->nobodys);
    free_desk(&s->desk);
    free_catalogue(&s->catalogue);
    free_tree(&s->tree);
}
