/* gorbihesh_list.h: writes catalogue lists for gorbihesh_select, and reads the rows that it answers.
 *
 *     gorbihesh_list_start     an empty list in bytes that the caller lends
 *     gorbihesh_list_begin     a record, and behind it any number of
 *     gorbihesh_list_word        a word of a field, with its position
 *     gorbihesh_list_whole       a whole number of a field
 *     gorbihesh_list_float       a float of a field
 *     gorbihesh_list_end       the record is whole, or there is no trace of it
 *     gorbihesh_row            a row's number, out of the bytes that gorbihesh_select wrote
 *
 * After each gorbihesh_list_end, `bytes` and `length` of the list are a list that gorbihesh_select takes, with
 * `count` records: it never refuses it with 22 or 23. The lengths inside are filled in and the limits kept here.
 *
 * Faults.  Nothing need be asked before gorbihesh_list_end. The first thing that cannot be written spoils the record:
 *   every call tells it from then on, and gorbihesh_list_end tells it and drops the record. The records before it stay.
 * Full.  GORBIHESH_LIST_FULL means that the record does not fit behind the others: start the next list and write it
 *   again there.
 * Memory.  Nothing is allocated, and there is no state but the struct: what is lent is written up to the room that is
 *   told and no further, and at most GORBIHESH_LIST_MOST bytes of it.
 */
#ifndef GORBIHESH_LIST_H
#define GORBIHESH_LIST_H

#include "gorbihesh.h"

#include <string.h>

#ifdef __cplusplus
extern "C" {
#endif

enum gorbihesh_list_answer {
    GORBIHESH_LIST_DONE = 0,
    GORBIHESH_LIST_FULL = 1,        /* no place behind the other records: start the next list */
    GORBIHESH_LIST_LONG_RECORD = 2, /* no place though the list is empty: it fits into no list of this room */
    GORBIHESH_LIST_LONG_FIELD = 3,  /* a field's name over GORBIHESH_FIELD_MOST bytes */
    GORBIHESH_LIST_NOT_ASCII = 4,   /* a byte 0x80 or above in a field's name or a text */
    GORBIHESH_LIST_NO_RECORD = 5    /* no record has been begun */
};

typedef struct {
    uint8_t *bytes;  /* the list, as gorbihesh_select takes it, */
    size_t length;   /*   and the bytes of its whole records */
    uint32_t count;  /* the whole records */
    size_t room;     /* private: the bytes of which it may use, */
    size_t end;      /*   the end of the record that is being written, */
    int answer;      /*   and what has become of it so far */
} gorbihesh_list;

#define GORBIHESH_LIST_HEADER 3 /* bytes of a tag and a length */

/* ---- private: a part's bytes. Room has been asked for by gorbihesh_list_entry. */

static inline void gorbihesh_list_put_number(gorbihesh_list *l, uint64_t n, int bytes) {
    while (bytes-- > 0) l->bytes[l->end++] = (uint8_t)(n >> (8 * bytes) & 0xFF);
}

static inline void gorbihesh_list_put_text(gorbihesh_list *l, const void *text, size_t length) {
    if (length > 0) memcpy(l->bytes + l->end, text, length);
    l->end += length;
}

static inline void gorbihesh_list_put_header(gorbihesh_list *l, int tag, size_t length) {
    l->bytes[l->end++] = (uint8_t)tag;
    gorbihesh_list_put_number(l, length, 2);
}

/* Spoils the record. A record is asked whether it is spoiled before anything else, so that its first fault stays. */
static inline int gorbihesh_list_fault(gorbihesh_list *l, int answer) {
    l->answer = answer;
    return answer;
}

static inline int gorbihesh_list_is_ascii(const void *text, size_t length) {
    const uint8_t *at = (const uint8_t *)text;
    size_t i;
    for (i = 0; i < length; i++)
        if (at[i] >= 0x80) return 0;
    return 1;
}

/* An entry's header and field; `value` bytes are left for its second part, header included. */
static inline int gorbihesh_list_entry(gorbihesh_list *l, int tag, const char *field, size_t field_length,
                                       size_t value) {
    size_t left = l->room - l->end;
    if (l->answer != GORBIHESH_LIST_DONE) return l->answer;
    if (field_length > GORBIHESH_FIELD_MOST) return gorbihesh_list_fault(l, GORBIHESH_LIST_LONG_FIELD);
    if (!gorbihesh_list_is_ascii(field, field_length)) return gorbihesh_list_fault(l, GORBIHESH_LIST_NOT_ASCII);
    if (value > left || 2 * GORBIHESH_LIST_HEADER + field_length > left - value)
        return gorbihesh_list_fault(l, l->count > 0 ? GORBIHESH_LIST_FULL : GORBIHESH_LIST_LONG_RECORD);
    gorbihesh_list_put_header(l, tag, GORBIHESH_LIST_HEADER + field_length + value);
    gorbihesh_list_put_header(l, GORBIHESH_FIELD_TAG, field_length);
    gorbihesh_list_put_text(l, field, field_length);
    return GORBIHESH_LIST_DONE;
}

static inline int gorbihesh_list_number(gorbihesh_list *l, int tag, const char *field, size_t field_length,
                                        uint64_t bits) {
    int answer = gorbihesh_list_entry(l, tag, field, field_length, GORBIHESH_LIST_HEADER + sizeof bits);
    if (answer != GORBIHESH_LIST_DONE) return answer;
    gorbihesh_list_put_header(l, GORBIHESH_VALUE_TAG, sizeof bits);
    gorbihesh_list_put_number(l, bits, sizeof bits);
    return GORBIHESH_LIST_DONE;
}

/* ---- the calls. Each that answers a number answers one of enum gorbihesh_list_answer. A slice whose length is 0 may
 * be NULL.
 */

/* An empty list. `room` is how many bytes are lent; of more than GORBIHESH_LIST_MOST, those are not used. */
static inline void gorbihesh_list_start(gorbihesh_list *l, uint8_t *bytes, size_t room) {
    l->bytes = bytes;
    l->length = 0;
    l->count = 0;
    l->room = room < GORBIHESH_LIST_MOST ? room : GORBIHESH_LIST_MOST;
    l->end = 0;
    l->answer = GORBIHESH_LIST_NO_RECORD;
}

/* Begins a record behind the whole ones. One that was begun and not ended is dropped. */
static inline int gorbihesh_list_begin(gorbihesh_list *l) {
    l->end = l->length;
    l->answer = GORBIHESH_LIST_DONE;
    if (GORBIHESH_LIST_HEADER > l->room - l->end)
        return gorbihesh_list_fault(l, l->count > 0 ? GORBIHESH_LIST_FULL : GORBIHESH_LIST_LONG_RECORD);
    l->end += GORBIHESH_LIST_HEADER;
    return GORBIHESH_LIST_DONE;
}

/* A word of a field. A term asks for the word, a phrase for words at positions that follow one another. */
static inline int gorbihesh_list_word(gorbihesh_list *l, const char *field, size_t field_length, uint32_t position,
                                      const char *text, size_t text_length) {
    const size_t front = GORBIHESH_LIST_HEADER + sizeof position;
    int answer;
    if (l->answer == GORBIHESH_LIST_DONE && !gorbihesh_list_is_ascii(text, text_length))
        return gorbihesh_list_fault(l, GORBIHESH_LIST_NOT_ASCII);
    answer = gorbihesh_list_entry(l, GORBIHESH_PLACE_TAG, field, field_length, front + text_length);
    if (answer != GORBIHESH_LIST_DONE) return answer;
    gorbihesh_list_put_header(l, GORBIHESH_WORD_TAG, sizeof position + text_length);
    gorbihesh_list_put_number(l, position, sizeof position);
    gorbihesh_list_put_text(l, text, text_length);
    return GORBIHESH_LIST_DONE;
}

/* A whole number of a field, for whole ranges. */
static inline int gorbihesh_list_whole(gorbihesh_list *l, const char *field, size_t field_length, int64_t number) {
    return gorbihesh_list_number(l, GORBIHESH_WHOLE_TAG, field, field_length, (uint64_t)number);
}

/* A float of a field, for float ranges. No range holds a NaN. */
static inline int gorbihesh_list_float(gorbihesh_list *l, const char *field, size_t field_length, double number) {
    uint64_t bits;
    memcpy(&bits, &number, sizeof bits);
    return gorbihesh_list_number(l, GORBIHESH_FLOAT_TAG, field, field_length, bits);
}

/* Ends the record: GORBIHESH_LIST_DONE and it is one more of the list, or what spoiled it and the list is as it was
 * when the record began.
 */
static inline int gorbihesh_list_end(gorbihesh_list *l) {
    int answer = l->answer;
    size_t end = l->end;
    l->answer = GORBIHESH_LIST_NO_RECORD;
    l->end = l->length;
    if (answer != GORBIHESH_LIST_DONE) return answer;
    gorbihesh_list_put_header(l, GORBIHESH_RECORD_TAG, end - l->length - GORBIHESH_LIST_HEADER);
    l->end = end;
    l->length = end;
    l->count++;
    return GORBIHESH_LIST_DONE;
}

/* The number of the record in row i, from 0; `rows` is what gorbihesh_select wrote, and i below its `count`. */
static inline uint32_t gorbihesh_row(const uint8_t *rows, size_t i) {
    const uint8_t *at = rows + 4 * i;
    return (uint32_t)at[0] << 24 | (uint32_t)at[1] << 16 | (uint32_t)at[2] << 8 | at[3];
}

#ifdef __cplusplus
}
#endif

#endif
