/* Catalogue lists: a record for each file, in as many lists of at most 64 KiB as it takes.
 *
 * A record holds these entries. Texts are made of the form of the path (names.h) in small letters, so that they are
 * ASCII.
 *
 *     path   the words of the path, runs of letters, with their positions
 *     name   the file's name, whole
 *     ext    what follows the last dot of the name
 *     kind   each folder that the file lies in, whole
 *     note   the words of the note beside it (note.h), with their positions
 *     all    the word `files`, in every record
 *     size   its bytes, a whole number
 *     day    the day of its last change, a whole number, counted from 1 January 1970
 */
#ifndef CATALOGUE_H
#define CATALOGUE_H

#include "gorbihesh_list.h"
#include "walk.h"

enum field { PATH, NAME, EXT, KIND, NOTE, ALL, SIZE, DAY, FIELDS };

typedef struct {
    gorbihesh_list list;
    size_t first; /* the file of the tree that its first record is */
} part_list;

typedef struct {
    part_list *at;
    size_t count, places;
    size_t having[FIELDS]; /* how many files have the field */
} catalogue;

/* A file whose record would not fit into any list is taken out of the tree and told as left out; where it would fit
 * without the words of its note, those are.
 */
void make_catalogue(tree *t, catalogue *c);

void free_catalogue(catalogue *c);

/* A field's number, or FIELDS where there is none of this name; as it is typed in a selector. */
int field_named(const char *name, size_t length);

/* Whether it holds numbers, which the text of a selector cannot ask for. */
int is_number_field(int field);

/* Whether it is a field's name, whatever its capitals. */
int is_field(const char *name);

extern const char default_field[]; /* of clauses that name no field */

/* How a selector is parsed for the catalogue: any clause is enough, name, ext, kind and all are compared whole, and
 * note by its words.
 */
gorbihesh_answer parse_selector(const char *field, size_t field_length, const char *text, size_t length, uint8_t *out,
                                size_t out_len, uint8_t *room, size_t room_len);

#endif
