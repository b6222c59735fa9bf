/* Memory that is there or ends the command, and rows that grow. */
#ifndef MEMORY_H
#define MEMORY_H

#include <stddef.h>

/* Ends the command with NO_MEMORY where there is none. */
void *must_have(void *memory);

/* Makes place for one more of `each` bytes behind `count`. */
void *with_place(void *row, size_t count, size_t *places, size_t each);

/* With a NUL behind it. */
char *copy_of(const char *text, size_t length);

#endif
