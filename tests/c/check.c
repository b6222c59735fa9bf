/* Counts checks and prints those that fail. */
#include "check.h"

#include <stdarg.h>
#include <stdio.h>

enum { PRINTED_MOST = 20 };

static char about[200] = "the start";
static unsigned long checks, failures;

void check_about(const char *format, ...) {
    va_list words;
    va_start(words, format);
    vsnprintf(about, sizeof about, format, words);
    va_end(words);
}

void check_that(int is_so, const char *file, int line, const char *what) {
    checks++;
    if (is_so) return;
    failures++;
    if (failures <= PRINTED_MOST) fprintf(stderr, "%s:%d: not so in %s: %s\n", file, line, about, what);
}

int check_done(const char *program) {
    if (failures > PRINTED_MOST) fprintf(stderr, "and %lu more\n", failures - PRINTED_MOST);
    if (failures > 0) {
        printf("%s: %lu of %lu checks FAILED\n", program, failures, checks);
        return 1;
    }
    printf("%s: %lu checks\n", program, checks);
    return 0;
}
