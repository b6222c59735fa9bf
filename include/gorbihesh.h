/* gorbihesh.h: the calls that a scheduler written in C makes.
 *
 *     gorbihesh_parse           the text of a selector     ->  a stored query
 *     gorbihesh_rewrite         a stored query             ->  a stored query that asks the same, made simpler
 *     gorbihesh_rewrite_strict  the same, where clauses may repeat under a minimum_should_match above 1
 *     gorbihesh_select          a stored query and a list  ->  the numbers of the records that it picks
 *
 * What holds of all of them:
 *
 * Slices.  A slice is a pointer and a number of bytes. No byte outside the lent slices is read or written.
 *   Where the number is 0 the pointer is not used and may be NULL. A slice that a call writes to (output,
 *   rows, room) must not overlap another slice of the same call; slices that it only reads may.
 * Success.  The answer's `refusal` is 0. The first `length` bytes of the output are the answer; the bytes
 *   behind them are as they were.
 * Refusal.  The answer's `refusal` is one of the numbers below and its other members are 0, but for `place`,
 *   which says where in a selector the fault is. Every byte of the output is as it was.
 * Room.  Working room is lent. It may hold anything before the call and holds zeros after it, refused or
 *   not, whole, however long it is. A room shorter than the call's constant below is refusal 32, which is
 *   tested before all else. A longer room is never needed.
 * Input.  What is only read is never changed.
 * Memory.  Nothing is allocated, nothing is kept from one call to the next, and there is no state that calls
 *   share: any number of threads may call at once, each with its own output and room.
 *
 * Numbers of several bytes inside slices are big-endian. The answer's members are ordinary C numbers.
 */
#ifndef GORBIHESH_H
#define GORBIHESH_H

#include <stddef.h>
#include <stdint.h>

#ifdef __cplusplus
extern "C" {
#endif

/* ---- version: of this header. gorbihesh_version gives that of the library that is linked. Where the major
 * numbers differ, so do the layouts of answers, queries or lists, and no other call may be made.
 */
#define GORBIHESH_VERSION_MAJOR 2
#define GORBIHESH_VERSION_MINOR 0
#define GORBIHESH_VERSION_PATCH 0
#define GORBIHESH_VERSION_STRING "2.0.0"
#define GORBIHESH_VERSION \
    (GORBIHESH_VERSION_MAJOR * 1000000 + GORBIHESH_VERSION_MINOR * 1000 + GORBIHESH_VERSION_PATCH)

uint32_t gorbihesh_version(void);

/* ---- rooms: the bytes of working room that each call needs, whatever its input.
 * The functions give the numbers of the archive that is linked, the constants those of this header; a test
 * holds the two equal. A call whose number is 0 takes an empty room, and NULL.
 */
#define GORBIHESH_PARSE_ROOM 5120
#define GORBIHESH_REWRITE_ROOM 38229
#define GORBIHESH_REWRITE_STRICT_ROOM 38229
#define GORBIHESH_SELECT_ROOM 0

size_t gorbihesh_parse_room(void);
size_t gorbihesh_rewrite_room(void);
size_t gorbihesh_rewrite_strict_room(void);
size_t gorbihesh_select_room(void);

/* ---- limits */
#define GORBIHESH_TEXT_MOST 1024           /* bytes of a selector */
#define GORBIHESH_FIELD_MOST 32            /* bytes of a field name */
#define GORBIHESH_ENTRIES_MOST 8           /* fields with an analyzer of their own */
#define GORBIHESH_REWRITE_QUERY_MOST 32768 /* bytes of a stored query that is rewritten, */
#define GORBIHESH_REWRITE_DEPTH_MOST 64    /*   and how many query records stand one in another */
#define GORBIHESH_SELECT_QUERY_MOST 65535  /* the same of a stored query that selects; */
#define GORBIHESH_SELECT_DEPTH_MOST 192    /*   whatever a rewriting answers lies within these two */
#define GORBIHESH_LIST_MOST 65536          /* bytes of a catalogue list */

/* ---- operators and analyzers */
enum gorbihesh_operator { GORBIHESH_OR = 0, GORBIHESH_AND = 1 };

enum gorbihesh_analyzer {
    GORBIHESH_WHITESPACE = 1, /* cuts at blanks */
    GORBIHESH_SIMPLE = 2,     /* runs of letters, in lower case */
    GORBIHESH_KEYWORD = 3,    /* the text whole */
    GORBIHESH_WORDS = 4,      /* words as UAX #29 cuts them, in lower case: don't, 3.5, rack_7 */
    GORBIHESH_ENGLISH = 5     /* the same without 33 stop words, whose positions stay empty */
};

/* ---- refusals: each is given exactly when its line says. Those from 4 to 17 have a place, which counts the
 * bytes of the text before it, from 0:
 *
 *     4                   the opening quote
 *     5                   the backslash
 *     6, 7                the byte itself
 *     8, 9                the ~
 *     10, 12              the end: as many bytes as the text has
 *     11, 13, 14, 16, 17  where the refused token starts; for 14 also the end, where nothing follows the ^
 *     15                  where the name starts
 *
 * All other refusals have place 0.
 */
enum gorbihesh_refusal {
    GORBIHESH_DONE = 0,              /* no refusal */
    GORBIHESH_LONG_TEXT = 1,         /* text over 1,024 bytes */
    GORBIHESH_NOT_ASCII = 2,         /* text has a byte 0x80 or above */
    GORBIHESH_BAD_SETUP = 3,         /* operator, analyzers or field names break the rules of gorbihesh_parse */
    GORBIHESH_OPEN_QUOTE = 4,        /* unterminated quote */
    GORBIHESH_NOTHING_ESCAPED = 5,   /* nothing after \ */
    GORBIHESH_RANGE_BRACKET = 6,     /* one of [ ] { } */
    GORBIHESH_WILDCARD = 7,          /* * or ? */
    GORBIHESH_FUZZY_TERM = 8,        /* ~ after a term */
    GORBIHESH_SLOPPY_PHRASE = 9,     /* ~ after a quoted phrase */
    GORBIHESH_UNEXPECTED_END = 10,   /* the text ends where a clause should stand */
    GORBIHESH_UNEXPECTED_TOKEN = 11, /* a token stands where it cannot */
    GORBIHESH_OPEN_BRACKET = 12,     /* ) missing */
    GORBIHESH_BAD_NUMERAL = 13,      /* bad boost numeral */
    GORBIHESH_NO_NUMERAL = 14,       /* no term after ^ */
    GORBIHESH_LONG_FIELD = 15,       /* field name before : over 32 bytes, unescaped */
    GORBIHESH_MANY_BRACKETS = 16,    /* a 25th open ( */
    GORBIHESH_LONG_NUMERAL = 17,     /* boost numeral over 40 bytes, unescaped */
    GORBIHESH_LONG_ANSWER = 18,      /* answer longer than the lent output */
    GORBIHESH_LONG_QUERY = 19,       /* stored query too long */
    GORBIHESH_MALFORMED_QUERY = 20,  /* stored query malformed */
    GORBIHESH_DEEP_QUERY = 21,       /* stored query too deep */
    GORBIHESH_LONG_LIST = 22,        /* catalogue list over 65,536 bytes */
    GORBIHESH_MALFORMED_LIST = 23,   /* catalogue list malformed */
    GORBIHESH_SHORT_ROOM = 32        /* working room shorter than the call's constant */
};

/* ---- tags: the first byte of each part of a stored query or a catalogue list; its length in two bytes and
 * its body follow. docs/FORMATS.md has both forms byte by byte, with an example of each.
 */
enum gorbihesh_tag {
    /* queries */
    GORBIHESH_TERM_TAG = 0x01,           /* field 10, text 11 */
    GORBIHESH_PHRASE_TAG = 0x02,         /* field 10, any number of words 12 */
    GORBIHESH_BOOLEAN_TAG = 0x03,        /* minimum 13, any number of clauses 20 to 23 */
    GORBIHESH_BOOST_TAG = 0x04,          /* four bytes of float, a query */
    GORBIHESH_CONSTANT_SCORE_TAG = 0x05, /* a query */
    GORBIHESH_MATCH_ALL_TAG = 0x06,      /* nothing */
    GORBIHESH_MATCH_NONE_TAG = 0x07,     /* nothing */
    GORBIHESH_WHOLE_RANGE_TAG = 0x08,    /* field 10, lower and upper bound 30 to 32, of whole numbers */
    GORBIHESH_FLOAT_RANGE_TAG = 0x09,    /* the same, of floats */
    /* what queries and entries hold */
    GORBIHESH_FIELD_TAG = 0x10,          /* 0 to 32 ASCII bytes */
    GORBIHESH_TEXT_TAG = 0x11,           /* ASCII bytes */
    GORBIHESH_WORD_TAG = 0x12,           /* four bytes of position, ASCII bytes */
    GORBIHESH_MINIMUM_TAG = 0x13,        /* two bytes: how many Should clauses must be true */
    GORBIHESH_VALUE_TAG = 0x14,          /* eight bytes of number */
    /* clauses: each holds one query */
    GORBIHESH_MUST_TAG = 0x20,           /* must be true */
    GORBIHESH_SHOULD_TAG = 0x21,         /* may be true */
    GORBIHESH_MUST_NOT_TAG = 0x22,       /* must not be true */
    GORBIHESH_FILTER_TAG = 0x23,         /* must be true, and does not rank */
    /* bounds of a range */
    GORBIHESH_OPEN_TAG = 0x30,           /* nothing: no bound */
    GORBIHESH_INCLUDED_TAG = 0x31,       /* eight bytes of number, itself inside */
    GORBIHESH_EXCLUDED_TAG = 0x32,       /* eight bytes of number, itself outside */
    /* catalogue lists */
    GORBIHESH_RECORD_TAG = 0x40,         /* any number of entries 41, 44, 45 */
    GORBIHESH_PLACE_TAG = 0x41,          /* an entry: field 10, word 12 */
    GORBIHESH_WHOLE_TAG = 0x44,          /* an entry: field 10, value 14, a signed whole number */
    GORBIHESH_FLOAT_TAG = 0x45           /* an entry: field 10, value 14, a float of 64 bits */
};

/* ---- the calls */

typedef struct {
    uint32_t refusal; /* 0, or why nothing was done */
    uint32_t length;  /* the bytes written to the output */
    uint32_t count;   /* gorbihesh_select: the records picked; 0 for the other calls */
    uint32_t rounds;  /* either rewriting: the rounds made, the last unchanged one included; else 0 */
    uint32_t place;   /* gorbihesh_parse: where the fault of refusals 4 to 17 is; else 0 */
} gorbihesh_answer;

/* Parses a selector.
 *
 * Takes     operator_: what joins two clauses with nothing between them (enum gorbihesh_operator);
 *           analyzer and field: of clauses that name no field, and the analyzer of every field that `fields`
 *           does not name; a field name is 0 to 32 ASCII bytes;
 *           fields: up to eight entries one behind the other, each one byte analyzer, one byte length of the
 *           name, the name; a later entry for a name replaces the earlier, and both count;
 *           text: at most 1,024 ASCII bytes, with no NUL at its end.
 * Promises  out: the stored query that the text means; a text with no words in it means "match nothing".
 *           Lend GORBIHESH_REWRITE_QUERY_MOST bytes: a longer query could not be rewritten.
 * Refuses   32; then 3, 1, 2; then 4 to 7, the first from the left; then 8 to 17, the first met; then 18.
 */
gorbihesh_answer gorbihesh_parse(uint8_t operator_, uint8_t analyzer,
                                 const uint8_t *field, size_t field_len,
                                 const uint8_t *fields, size_t fields_len,
                                 const uint8_t *text, size_t text_len,
                                 uint8_t *out, size_t out_len,
                                 uint8_t *room, size_t room_len);

/* Rewrites a stored query, round by round, until a round changes nothing.
 *
 * Takes     query: one stored query that fills the slice.
 * Promises  out: the stored query of the last round, and `rounds`. Where no minimum_should_match of the query
 *           is above 1 (none is that gorbihesh_parse makes), it picks exactly the records that the query
 *           picks. GORBIHESH_SELECT_QUERY_MOST bytes serve.
 * Refuses   32; then 19 over 32,768 bytes; then 20 and 21 (deeper than 64) in reading order; then 18.
 */
gorbihesh_answer gorbihesh_rewrite(const uint8_t *query, size_t query_len,
                                   uint8_t *out, size_t out_len,
                                   uint8_t *room, size_t room_len);

/* Rewrites a stored query strictly. Every rule, the count of rounds and the refusals are gorbihesh_rewrite's, but
 * for one: Should clauses are never dropped as duplicates while minimum_should_match is above 1.
 *
 * With minimum 2 and the Should clauses a, a, gorbihesh_rewrite drops the second a, as the original program does;
 * one is too few, and the result picks nothing, though the query picks the records with an a. Strictly the query
 * stays as it is. Use it for queries that were not made by gorbihesh_parse and may have a minimum above 1; of all
 * other queries both make the same bytes in as many rounds.
 *
 * Takes     query: one stored query that fills the slice.
 * Promises  out: the stored query of the last round, and `rounds`. At every minimum_should_match it picks exactly
 *           the records that the query picks. GORBIHESH_SELECT_QUERY_MOST bytes serve.
 * Refuses   32; then 19 over 32,768 bytes; then 20 and 21 (deeper than 64) in reading order; then 18.
 */
gorbihesh_answer gorbihesh_rewrite_strict(const uint8_t *query, size_t query_len,
                                          uint8_t *out, size_t out_len,
                                          uint8_t *room, size_t room_len);

/* Picks the records of a catalogue list for which a stored query is true.
 *
 * Takes     query: one stored query that fills the slice, rewritten or not;
 *           list: records one behind the other; an empty slice is a list with no records.
 * Promises  rows: the numbers of these records, from 0 and rising, four bytes each; `count` is how many and
 *           `length` four times that. Four bytes for each record of the list serve. Whether a record is
 *           picked depends on it and the query alone.
 * Refuses   32; then 19 over 65,535 bytes; then 20 and 21 (deeper than 192) in reading order; then 22, 23;
 *           then 18.
 */
gorbihesh_answer gorbihesh_select(const uint8_t *query, size_t query_len,
                                  const uint8_t *list, size_t list_len,
                                  uint8_t *rows, size_t rows_len,
                                  uint8_t *room, size_t room_len);

/* A refusal in a technician's words: one line of ASCII, no full stop. Never NULL: a number that is no refusal of
 * this release has words too. The text is the library's own and stays; do not free it.
 */
const char *gorbihesh_words(uint32_t refusal);

#ifdef __cplusplus
}
#endif

#endif
