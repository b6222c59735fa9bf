/* Text and numbers that are safe to print. */
#ifndef PRINT_H
#define PRINT_H

#include <stddef.h>
#include <stdint.h>
#include <stdio.h>

/* A file's name in its form, with \ before " and \: as it is typed between quotes. */
void print_name(FILE *to, const char *name);

/* A text with \ before " and \, and bytes that are no printable ASCII as \u and four hex digits: what JSON has between
 * quotes, each character standing for one byte.
 */
void print_quotable(FILE *to, const char *text, size_t length);

/* A line of a sheet as it was typed; bytes that are no printable ASCII as % and three octal digits. */
void print_typed(FILE *to, const char *text, size_t length);

/* How many columns it takes so: a tab and any other control character is printed as its escape. */
size_t width_of_typed(const char *text, size_t length);

/* Digits in threes, at least `width` wide. */
void print_number(FILE *to, uint64_t n, int width);
int width_of(uint64_t n);

/* `1 file`, `2 files`; and the same of bytes. */
void print_count(FILE *to, uint64_t n, const char *what);
void print_total(FILE *to, size_t files, uint64_t bytes);

/* On stderr: `gorbihesh: what name: why`. */
void complain(const char *what, const char *name, const char *why);

/* Sums stay at the greatest number instead of going around. */
uint64_t sum_of(uint64_t a, uint64_t b);

#endif
