/* Memory that is there or ends the command, and rows that grow. */
#include "memory.h"

#include "status.h"

#include <stdio.h>
#include <stdlib.h>
#include <string.h>

enum { FIRST_PLACES = 64 };

void *must_have(void *memory) {
    if (memory != NULL) return memory;
    fputs("gorbihesh: no memory left\n", stderr);
    exit(NO_MEMORY);
}

void *with_place(void *row, size_t count, size_t *places, size_t each) {
    if (count < *places) return row;
    *places = *places == 0 ? FIRST_PLACES : 2 * *places;
    if (*places > (size_t)-1 / each) must_have(NULL);
    return must_have(realloc(row, *places * each));
}

char *copy_of(const char *text, size_t length) {
    char *copy = must_have(malloc(length + 1));
    if (length > 0) memcpy(copy, text, length);
    copy[length] = 0;
    return copy;
}
