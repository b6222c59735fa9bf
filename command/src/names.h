/* Names of files in ASCII. A name may hold any byte; its form is ASCII, and no two names have one form.
 *
 * In the form, the characters from blank to ~ stand for themselves. Every other byte is % and three octal digits, and
 * so is a % behind which three octal digits of a byte stand. `café 100%.txt` is `caf%303%251 100%.txt`. There are no
 * letters in what is escaped, so that the words of a form are those of the name.
 *
 * The catalogue has the form in small letters. Printed, and in a record, a \ stands before each " and \ of the form.
 * So what is printed can be typed back between quotes: name:"caf%303%251 100%.txt".
 */
#ifndef NAMES_H
#define NAMES_H

#include <stddef.h>

/* To be freed. */
char *form_of(const char *name);

/* The name that is printed so; of any other text, the name that it reads as. To be freed. */
char *name_of(const char *printed);

/* A to Z as a to z: the one rule for capitals. */
int to_small(int c);
void make_small(char *text);
int are_same_but_for_capitals(const char *a, const char *b);

int is_letter(int c);

/* Writes % and three octal digits, with no NUL. */
enum { ESCAPE_LENGTH = 4 };
void put_escape(char to[ESCAPE_LENGTH], unsigned char byte);

#endif
