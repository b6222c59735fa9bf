/* A list that is being written between fences, and what gorbihesh_select makes of it. */
#ifndef DESK_H
#define DESK_H

#include "calls.h"
#include "check.h"
#include "gorbihesh_list.h"

typedef struct {
    lent lent;
    gorbihesh_list list;
} desk;

/* The list starts in so many dirty bytes. */
desk start_desk(size_t room);

/* Fences are checked. */
void end_desk(desk *d);

/* A record with one word of the field `f`. */
int add_word_record(desk *d, const char *text, size_t length);

/* A record of so many bytes in all, 17 or more: one word of the field `f`, as long as it takes. */
int add_record_of(desk *d, size_t bytes);

/* The list so far, taken by gorbihesh_select with a query in hex. */
outcome pick_hex(const desk *d, const char *query);

/* It has this many records and gorbihesh_select lists them all. */
void check_count(const desk *d, uint32_t count);

#endif
