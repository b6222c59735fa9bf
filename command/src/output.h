/* A file that is written whole or not at all: what stood there before stays until the new one is whole. */
#ifndef OUTPUT_H
#define OUTPUT_H

#include <stdio.h>

typedef struct {
    FILE *to;
    char *place;  /* where it goes */
    char *beside; /* where it is written first; NULL where the place is a pipe or a device, which is written at once */
} output;

/* Each is false where it cannot be written, which is told on stderr; nothing is then left behind. */
int open_output(const char *path, output *o);
int close_output(output *o);

#endif
