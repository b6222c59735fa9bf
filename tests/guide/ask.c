/* Makes the calls that lines of standard input name, and answers each with a line. Columns are parted by one
 * blank; bytes are lower-case hex, `-` for none.
 *
 *     parse OPERATOR ANALYZER FIELD FIELDS TEXT  ->  REFUSAL BYTES
 *     rewrite QUERY                              ->  REFUSAL ROUNDS BYTES
 *     select QUERY LIST                          ->  REFUSAL COUNT BYTES
 *     words REFUSAL                              ->  the words of the header
 */
#include "gorbihesh.h"

#include <stdio.h>
#include <stdlib.h>
#include <string.h>

enum { LINE_MOST = 400000, COLUMNS_MOST = 6, OUTPUT = 65536 };

typedef struct {
    uint8_t *bytes;
    size_t length;
} slice;

static uint8_t output[OUTPUT];
static uint8_t room[GORBIHESH_REWRITE_ROOM];

static _Noreturn void stop(const char *why) {
    fprintf(stderr, "ask: %s\n", why);
    exit(2);
}

static unsigned digit(char c) {
    if (c >= '0' && c <= '9') return (unsigned)(c - '0');
    if (c >= 'a' && c <= 'f') return (unsigned)(c - 'a' + 10);
    stop("not a hex digit");
}

/* The bytes take the place of their digits. */
static slice bytes_of(char *hex) {
    slice s = {(uint8_t *)hex, 0};
    if (strcmp(hex, "-") == 0) return s;
    size_t digits = strlen(hex);
    if (digits % 2 != 0) stop("half a byte");
    for (; s.length < digits / 2; s.length++)
        s.bytes[s.length] = (uint8_t)(16 * digit(hex[2 * s.length]) + digit(hex[2 * s.length + 1]));
    return s;
}

static void print_bytes(size_t length) {
    if (length == 0) putchar('-');
    for (size_t i = 0; i < length; i++) printf("%02x", output[i]);
    putchar('\n');
}

static void ask_parse(char **column) {
    slice field = bytes_of(column[3]), fields = bytes_of(column[4]), text = bytes_of(column[5]);
    gorbihesh_answer a = gorbihesh_parse((uint8_t)atoi(column[1]), (uint8_t)atoi(column[2]), field.bytes, field.length,
                                         fields.bytes, fields.length, text.bytes, text.length, output, OUTPUT, room,
                                         GORBIHESH_PARSE_ROOM);
    printf("%u ", a.refusal);
    print_bytes(a.length);
}

static void ask_rewrite(char **column) {
    slice query = bytes_of(column[1]);
    gorbihesh_answer a = gorbihesh_rewrite(query.bytes, query.length, output, OUTPUT, room, GORBIHESH_REWRITE_ROOM);
    printf("%u %u ", a.refusal, a.rounds);
    print_bytes(a.length);
}

static void ask_select(char **column) {
    slice query = bytes_of(column[1]), list = bytes_of(column[2]);
    gorbihesh_answer a =
        gorbihesh_select(query.bytes, query.length, list.bytes, list.length, output, OUTPUT, room, GORBIHESH_SELECT_ROOM);
    printf("%u %u ", a.refusal, a.count);
    print_bytes(a.length);
}

static void ask_words(char **column) { puts(gorbihesh_words((uint32_t)atoi(column[1]))); }

static const struct {
    const char *name;
    int columns;
    void (*ask)(char **column);
} calls[] = {{"parse", 6, ask_parse}, {"rewrite", 2, ask_rewrite}, {"select", 3, ask_select}, {"words", 2, ask_words}};

static void answer(char *line) {
    char *column[COLUMNS_MOST];
    int columns = 0;
    for (char *word = strtok(line, " \n"); word != NULL; word = strtok(NULL, " \n")) {
        if (columns == COLUMNS_MOST) stop("too many columns");
        column[columns++] = word;
    }
    for (size_t i = 0; columns > 0 && i < sizeof calls / sizeof *calls; i++)
        if (strcmp(calls[i].name, column[0]) == 0 && calls[i].columns == columns) {
            calls[i].ask(column);
            return;
        }
    stop("no such call");
}

int main(void) {
    static char line[LINE_MOST];
    while (fgets(line, sizeof line, stdin) != NULL) {
        if (strchr(line, '\n') == NULL) stop("a line is too long");
        answer(line);
    }
    return fflush(stdout) == 0 ? 0 : 2;
}
