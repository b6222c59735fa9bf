/* Writes a file beside its place and then moves it there. */
#define _XOPEN_SOURCE 700 /* mkstemp, realpath, fsync */
#include "output.h"

#include "memory.h"
#include "print.h"

#include <errno.h>
#include <stdlib.h>
#include <string.h>
#include <sys/stat.h>
#include <unistd.h>

enum { RIGHTS = 0666 }; /* less what umask takes away */

static const char ending[] = ".XXXXXX";

static int fails(output *o, int why) {
    complain("cannot write ", o->place, strerror(why));
    free(o->place);
    free(o->beside);
    return 0;
}

/* A new file beside the place, with the rights that any new file has. */
static FILE *opened_beside(output *o) {
    mode_t mask = umask(0);
    umask(mask);
    o->beside = must_have(malloc(strlen(o->place) + sizeof ending));
    strcpy(o->beside, o->place);
    strcat(o->beside, ending);
    int fd = mkstemp(o->beside);
    if (fd < 0) return NULL;
    fchmod(fd, RIGHTS & ~mask);
    return fdopen(fd, "w");
}

/* A link stays, and what it points to is replaced. */
int open_output(const char *path, output *o) {
    struct stat s;
    char *full = realpath(path, NULL);
    *o = (output){NULL, full != NULL ? full : copy_of(path, strlen(path)), NULL};
    if (stat(path, &s) != 0 || S_ISREG(s.st_mode)) o->to = opened_beside(o);
    else o->to = fopen(o->place, "w");
    return o->to != NULL || fails(o, errno);
}

/* The first fault's number, or 0. */
static int finish(output *o) {
    int why = 0;
    errno = EIO; /* where an earlier write failed, its number is gone */
    if (ferror(o->to) || fflush(o->to) != 0 || (o->beside != NULL && fsync(fileno(o->to)) != 0)) why = errno;
    if (fclose(o->to) != 0 && why == 0) why = errno;
    if (why == 0 && o->beside != NULL && rename(o->beside, o->place) != 0) why = errno;
    return why;
}

int close_output(output *o) {
    int why = finish(o);
    if (why != 0 && o->beside != NULL) remove(o->beside);
    if (why != 0) return fails(o, why);
    free(o->place);
    free(o->beside);
    return 1;
}
