/* The exit statuses of the command in words. */
#include "status.h"

#include <stddef.h>

static const char *const words[] = {
    [ALL_WELL] = "all well",
    [WRONG_ARGUMENTS] = "wrong arguments",
    [CANNOT_READ] = "the directory, the sheet or the record cannot be read",
    [CANNOT_WRITE] = "an output cannot be written",
    [NO_MEMORY] = "no memory left",
    [REFUSED] = "a selector or a line of the sheet was refused",
    [NO_JOB] = "the sheet has no job",
    [NO_FILE] = "the directory has no file",
    [PICKS_NOTHING] = "a job picks nothing",
    [LEFT_OUT] = "something was left out of the catalogue",
    [POINTED_OUT] = "something was pointed out",
    [NOBODY_PICKED] = "no job picked the file",
    [NOT_CATALOGUED] = "the file was not in the catalogue",
};

int also(int status, int another) {
    if (status == ALL_WELL || (another != ALL_WELL && another < status)) return another;
    return status;
}

const char *status_words(int status) {
    size_t known = sizeof words / sizeof *words;
    return status >= 0 && (size_t)status < known ? words[status] : "no status of this release";
}
