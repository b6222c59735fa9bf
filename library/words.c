/* words.c: each refusal in a technician's words. The one part of the archive that is plain C, and that no proof
 * covers: Rattle has no pointer to a text that stays. */
#include "gorbihesh.h"

const char *gorbihesh_words(uint32_t refusal) {
    switch (refusal) {
    case GORBIHESH_DONE: return "not refused";
    case GORBIHESH_LONG_TEXT: return "the selector is longer than 1,024 characters";
    case GORBIHESH_NOT_ASCII: return "the selector has a character outside plain ASCII, as an accent or a curly quote";
    case GORBIHESH_BAD_SETUP: return "the program's own setup is wrong: an operator, an analyzer or a field name";
    case GORBIHESH_OPEN_QUOTE: return "a quote \" is opened and never closed";
    case GORBIHESH_NOTHING_ESCAPED: return "nothing follows the last \\";
    case GORBIHESH_RANGE_BRACKET: return "ranges are not taken: write \\ before [ ] { } to mean the sign itself";
    case GORBIHESH_WILDCARD: return "wildcards are not taken: write \\ before * or ? to mean the sign itself";
    case GORBIHESH_FUZZY_TERM: return "a ~ after a word is not taken: write \\ before it to mean the sign itself";
    case GORBIHESH_SLOPPY_PHRASE: return "a ~ after a quoted phrase is not taken";
    case GORBIHESH_UNEXPECTED_END: return "the selector ends where a word should follow";
    case GORBIHESH_UNEXPECTED_TOKEN: return "a sign, or AND, OR or NOT, stands where a word should be";
    case GORBIHESH_OPEN_BRACKET: return "a bracket ( is opened and never closed";
    case GORBIHESH_BAD_NUMERAL: return "what follows ^ is not a number";
    case GORBIHESH_NO_NUMERAL: return "a number must follow ^, and a minus sign before it needs a \\";
    case GORBIHESH_LONG_FIELD: return "a field name before : is longer than 32 characters";
    case GORBIHESH_MANY_BRACKETS: return "more than 24 brackets ( are open at once";
    case GORBIHESH_LONG_NUMERAL: return "the number after ^ is longer than 40 characters";
    case GORBIHESH_LONG_ANSWER: return "the answer is longer than the output that the program lent";
    case GORBIHESH_LONG_QUERY: return "the stored query is too long";
    case GORBIHESH_MALFORMED_QUERY: return "the stored query is damaged";
    case GORBIHESH_DEEP_QUERY: return "the stored query has too many parts one inside another";
    case GORBIHESH_LONG_LIST: return "the catalogue list is longer than 65,536 bytes";
    case GORBIHESH_MALFORMED_LIST: return "the catalogue list is damaged";
    case GORBIHESH_SHORT_ROOM: return "the working room that the program lent is too short";
    default: return "not a refusal number of this release";
    }
}
