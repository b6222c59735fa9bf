/* Compiled, not run: the header by itself, as C99 and as C++, with nothing before it and included twice. */
#include "gorbihesh.h"
#include "gorbihesh.h"

const char *said_of(gorbihesh_answer a);
const char *said_of(gorbihesh_answer a) { return gorbihesh_words(a.refusal); }
