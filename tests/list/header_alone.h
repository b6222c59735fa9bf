/* Compiled as C99 and as C++: the list header by itself, twice. */
#include "gorbihesh_list.h"
#include "gorbihesh_list.h"
