/* The words after `gorbihesh`, and the commands. */
#ifndef OPTIONS_H
#define OPTIONS_H

typedef struct {
    int want_all;
    const char *record, *files_from0, *selector; /* NULL where not given */
    char **operands;                             /* what is no option */
    int count;
} options;

/* Each answers the exit status. */
int run_night(const options *o);
int run_check(const options *o);
int run_why(const options *o);

#endif
