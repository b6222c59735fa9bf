/* Text and numbers that are safe to print. */
#include "print.h"

#include "names.h"

#include <inttypes.h>
#include <stdlib.h>
#include <string.h>

enum { NUMBER_MOST = 32 }; /* 20 digits, 6 commas and the NUL */

static int is_printable(unsigned char c) { return c >= 0x20 && c < 0x7F; }

void print_quotable(FILE *to, const char *text, size_t length) {
    for (size_t i = 0; i < length; i++) {
        unsigned char c = (unsigned char)text[i];
        if (!is_printable(c)) {
            fprintf(to, "\\u%04x", c);
            continue;
        }
        if (c == '"' || c == '\\') putc('\\', to);
        putc(c, to);
    }
}

void print_name(FILE *to, const char *name) {
    char *form = form_of(name);
    print_quotable(to, form, strlen(form));
    free(form);
}

void print_typed(FILE *to, const char *text, size_t length) {
    for (size_t i = 0; i < length; i++) {
        char escape[ESCAPE_LENGTH];
        unsigned char c = (unsigned char)text[i];
        put_escape(escape, c);
        if (is_printable(c)) putc(c, to);
        else fwrite(escape, 1, sizeof escape, to);
    }
}

size_t width_of_typed(const char *text, size_t length) {
    size_t width = 0;
    for (size_t i = 0; i < length; i++) width += is_printable((unsigned char)text[i]) ? 1 : ESCAPE_LENGTH;
    return width;
}

/* How long it is. */
static int group_digits(uint64_t n, char grouped[NUMBER_MOST]) {
    char digits[NUMBER_MOST];
    int length = snprintf(digits, sizeof digits, "%" PRIu64, n), at = 0;
    for (int i = 0; i < length; i++) {
        if (i > 0 && (length - i) % 3 == 0) grouped[at++] = ',';
        grouped[at++] = digits[i];
    }
    grouped[at] = 0;
    return at;
}

void print_number(FILE *to, uint64_t n, int width) {
    char grouped[NUMBER_MOST];
    group_digits(n, grouped);
    fprintf(to, "%*s", width, grouped);
}

int width_of(uint64_t n) {
    char grouped[NUMBER_MOST];
    return group_digits(n, grouped);
}

void print_count(FILE *to, uint64_t n, const char *what) {
    print_number(to, n, 0);
    fprintf(to, n == 1 ? " %s" : " %ss", what);
}

void print_total(FILE *to, size_t files, uint64_t bytes) {
    print_count(to, files, "file");
    fputs(", ", to);
    print_count(to, bytes, "byte");
}

void complain(const char *what, const char *name, const char *why) {
    fprintf(stderr, "gorbihesh: %s", what);
    print_name(stderr, name);
    fprintf(stderr, ": %s\n", why);
}

uint64_t sum_of(uint64_t a, uint64_t b) { return b > UINT64_MAX - a ? UINT64_MAX : a + b; }
