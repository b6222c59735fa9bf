/* A file's bytes, whole. */
#ifndef WHOLE_H
#define WHOLE_H

#include <stddef.h>

typedef struct {
    char *bytes; /* with a NUL behind them */
    size_t length;
} whole;

/* False where it cannot be read, which is told on stderr with `what` it is. */
int read_whole(const char *what, const char *path, whole *w);

void free_whole(whole *w);

#endif
