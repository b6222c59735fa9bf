/* Notes: a file `F.note` says something about the file F beside it. Its words are F's entries of the field `note`. */
#ifndef NOTE_H
#define NOTE_H

#include <stdint.h>

extern const char note_field[];
extern const char note_ending[]; /* of a note's name, behind the name of the file that it is about */

/* Whether a file of this name is a note. */
int is_note(const char *name);

/* The words of a note with their positions: the stored query of its text between quotes, to be freed. In the text each
 * byte that is no printable ASCII, each " and each \ is a blank, which parts words as they do. What is not taken
 * is told in `why`: the last words of a long note, or all of one that cannot be read, which is NULL.
 */
uint8_t *read_note(int fd, const char **why);

#endif
