/* Looks at the text of a selector for what is read otherwise than it looks: a word that is left out, a field that no
 * file has, a lower-case `and`, a sign before a blank, an empty bracket.
 */
#ifndef LOOK_H
#define LOOK_H

#include "selector.h"

/* Prints a line for each, and answers how many. The desk's last selector is read anew. */
size_t look_at_text(desk *d, const char *text, size_t length);

#endif
