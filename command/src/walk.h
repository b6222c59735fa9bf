/* Walks a directory and gathers its files, and what notes say. */
#ifndef WALK_H
#define WALK_H

#include <stddef.h>
#include <stdint.h>

typedef struct {
    char *path; /* below the directory, folders parted by / */
    uint64_t size;
    int64_t day; /* of the last change, counted from 1 January 1970 */
    uint8_t *note; /* its words where it is a note (note.h), or NULL */
} file;

/* Something of the directory that is not in the catalogue. */
typedef struct {
    char *path;
    const char *what; /* file, folder, link, .. */
    char *why;
} notice;

/* In order of their paths: folders are read in no particular order. */
typedef struct {
    notice *at;
    size_t count, places;
} notices;

typedef struct {
    file *at; /* in order of their paths, byte by byte */
    size_t count, places;
    size_t folders;       /* read, the directory itself included */
    notices left_out;     /* what could not be read or catalogued */
    notices not_followed; /* links, pipes, devices and sockets */
} tree;

/* False where the directory itself cannot be read; `left_out` then says why. Links are not followed, so there are no
 * loops. A file is opened, to see whether it can be read, and closed; a note is read. A long walk says on stderr how
 * far it is.
 */
int walk(const char *directory, tree *t);

void add_notice(notices *n, const char *path, const char *what, const char *why);
void sort_notices(notices *n);

void free_file(file *f);
void free_tree(tree *t);

#endif
