/* Reads JSON from beginning to end. The first thing that is no JSON ends the reading: every call then answers that
 * there is nothing more.
 */
#ifndef JSON_READ_H
#define JSON_READ_H

#include <stddef.h>
#include <stdint.h>

typedef struct {
    const char *at, *end;
    int is_first; /* of the object or array that is open */
    int is_sound;
} json_reader;

json_reader start_json(const char *text, size_t length);

/* Takes a { or [, if it is the next. */
int json_opens(json_reader *j, char bracket);

/* Before each member or item: whether there is one more; if not, the closing bracket is taken. */
int json_has_more(json_reader *j, char closing);

/* A member's key and its colon; a string with its escapes undone; never NULL, to be freed. A character stands for one
 * byte, so none above \u00ff is taken.
 */
char *json_key(json_reader *j);
char *json_text(json_reader *j, size_t *length);

/* NULL where null stands in the string's place. */
char *json_text_or_null(json_reader *j);

/* A whole number that is not negative. */
uint64_t json_number(json_reader *j);

/* Any value. */
void json_skip(json_reader *j);

/* Whether all was sound and nothing is left. */
int json_ends(json_reader *j);

#endif
