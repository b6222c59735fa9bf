/* Writes JSON: ASCII alone, a member a line, or a whole object on one line. */
#ifndef JSON_WRITE_H
#define JSON_WRITE_H

#include <stddef.h>
#include <stdint.h>
#include <stdio.h>

typedef struct {
    FILE *to;
    int depth;
    int is_first; /* of the object or array that is open */
    int flat;     /* from which depth on all stands on one line; 0 for none */
} json_writer;

/* `key` is NULL for the items of an array, and for the value itself. */
void write_open(json_writer *w, const char *key, char bracket);
void write_close(json_writer *w, char bracket);

/* The same, on one line. */
void write_open_flat(json_writer *w, const char *key, char bracket);

/* Each character of the string stands for one byte of the text. */
void write_text(json_writer *w, const char *key, const char *text, size_t length);

/* A file's name in its form. */
void write_name(json_writer *w, const char *key, const char *name);

void write_number(json_writer *w, const char *key, uint64_t n);
void write_null(json_writer *w, const char *key);

#endif
