/* gorbihesh: the command. Reads its arguments and runs night, check or why. */
#define _GNU_SOURCE /* getopt_long */
#include "gorbihesh.h"
#include "options.h"
#include "status.h"

#include <errno.h>
#include <getopt.h>
#include <stdio.h>
#include <string.h>

static const char help[] =
    "gorbihesh night [OPTIONS] DIRECTORY SHEET        what each job of the sheet picks, and what nobody picks\n"
    "    -a, --all             name every file, not only the first few\n"
    "    --record FILE         write the record of this night, which `why` reads\n"
    "    --files-from0 FILE    write the picked paths, each ended by a NUL, for rsync --from0 --files-from\n"
    "gorbihesh check [-a] SHEET DIRECTORY             each selector of the sheet, clause by clause\n"
    "gorbihesh check [-a] --selector TEXT DIRECTORY   the same of one selector\n"
    "gorbihesh why RECORD PATH                        which jobs of a recorded night picked a file, or why none did\n"
    "gorbihesh --help, gorbihesh --version\n"
    "\n"
    "-- ends the options. The manual, gorbihesh(1), has the sheet, the fields and the exit statuses.\n";

enum { ALL_OPTION = 'a', HELP_OPTION = 'h', VERSION_OPTION = 'v', RECORD_OPTION = 'r', FILES_OPTION = 'f',
       SELECTOR_OPTION = 's' };

static const struct option known[] = {
    {"all", no_argument, NULL, ALL_OPTION},
    {"help", no_argument, NULL, HELP_OPTION},
    {"version", no_argument, NULL, VERSION_OPTION},
    {"record", required_argument, NULL, RECORD_OPTION},
    {"files-from0", required_argument, NULL, FILES_OPTION},
    {"selector", required_argument, NULL, SELECTOR_OPTION},
    {NULL, 0, NULL, 0},
};

typedef struct {
    const char *name, *takes; /* its options, by their letters */
    int operands;
    int (*run)(const options *);
} command;

static const command commands[] = {
    {"night", "arf", 2, run_night},
    {"check", "as", 2, run_check}, /* one fewer with --selector */
    {"why", "", 2, run_why},
};

/* What to do in place of a command, as --help asks. */
enum request { NONE, HELP, VERSION, WRONG };

static enum request take_option(const command *c, int letter, options *o) {
    if (letter == HELP_OPTION) return HELP;
    if (letter == VERSION_OPTION) return VERSION;
    if (letter == '?' || c == NULL || strchr(c->takes, letter) == NULL) return WRONG;
    if (letter == ALL_OPTION) o->want_all = 1;
    if (letter == RECORD_OPTION) o->record = optarg;
    if (letter == FILES_OPTION) o->files_from0 = optarg;
    if (letter == SELECTOR_OPTION) o->selector = optarg;
    return NONE;
}

/* `words[0]` is the command's own name. */
static enum request read_options(const command *c, int count, char **words, options *o) {
    int letter;
    opterr = 0;
    while ((letter = getopt_long(count, words, "a", known, NULL)) != -1) {
        enum request r = take_option(c, letter, o);
        if (r != NONE) return r;
    }
    o->operands = words + optind;
    o->count = count - optind;
    return c != NULL && o->count == c->operands - (o->selector != NULL) ? NONE : WRONG;
}

static const command *command_named(const char *name) {
    for (size_t i = 0; i < sizeof commands / sizeof *commands; i++)
        if (strcmp(commands[i].name, name) == 0) return &commands[i];
    return NULL;
}

static int answer(enum request r, const command *c, const options *o) {
    switch (r) {
    case NONE: return c->run(o);
    case HELP: fputs(help, stdout); return ALL_WELL;
    case VERSION: puts("gorbihesh " GORBIHESH_VERSION_STRING); return ALL_WELL;
    default: fprintf(stderr, "gorbihesh: wrong arguments\n%s", help); return WRONG_ARGUMENTS;
    }
}

int main(int count, char **words) {
    const command *c = count > 1 ? command_named(words[1]) : NULL;
    int skipped = c != NULL;
    options o = {0, NULL, NULL, NULL, NULL, 0};
    int status = answer(read_options(c, count - skipped, words + skipped, &o), c, &o);
    if (fflush(stdout) == 0 && !ferror(stdout)) return status;
    fprintf(stderr, "gorbihesh: cannot write: %s\n", strerror(errno));
    return CANNOT_WRITE;
}
