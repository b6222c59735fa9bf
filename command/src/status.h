/* The exit statuses of the command, one for each kind of end. */
#ifndef STATUS_H
#define STATUS_H

enum status {
    ALL_WELL = 0,
    WRONG_ARGUMENTS = 1,
    CANNOT_READ = 2,
    CANNOT_WRITE = 3,
    NO_MEMORY = 4,
    REFUSED = 5,
    NO_JOB = 6,
    NO_FILE = 7,
    PICKS_NOTHING = 8,
    LEFT_OUT = 9,
    POINTED_OUT = 10,
    NOBODY_PICKED = 11,
    NOT_CATALOGUED = 12
};

/* Both apply: the lower one is told, whatever 0 says. */
int also(int status, int another);

const char *status_words(int status);

#endif
