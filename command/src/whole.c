/* Reads a file, or a pipe, to its end. */
#include "whole.h"

#include "memory.h"
#include "print.h"

#include <errno.h>
#include <stdio.h>
#include <stdlib.h>
#include <string.h>

/* A byte is kept free for the NUL. */
static void read_on(FILE *from, whole *w) {
    size_t places = 0, got;
    do {
        w->bytes = with_place(w->bytes, w->length + 1, &places, 1);
        got = fread(w->bytes + w->length, 1, places - w->length - 1, from);
        w->length += got;
    } while (got > 0);
    w->bytes[w->length] = 0;
}

int read_whole(const char *what, const char *path, whole *w) {
    *w = (whole){NULL, 0};
    FILE *from = fopen(path, "r");
    int is_read = from != NULL;
    if (is_read) {
        read_on(from, w);
        is_read = !ferror(from);
    }
    int why = errno;
    if (from != NULL) fclose(from);
    if (is_read) return 1;
    complain(what, path, strerror(why));
    free_whole(w);
    return 0;
}

void free_whole(whole *w) { free(w->bytes); }
