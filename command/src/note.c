/* Reads notes. */
#define _XOPEN_SOURCE 700 /* ssize_t */
#include "note.h"

#include "gorbihesh.h"
#include "memory.h"

#include <errno.h>
#include <string.h>
#include <unistd.h>

enum {
    QUOTE = 1,
    NOTE_MOST = GORBIHESH_TEXT_MOST - 2 * QUOTE /* bytes of a note's text: it is parsed between quotes */
};

const char note_field[] = "note";
const char note_ending[] = ".note";

int is_note(const char *name) {
    size_t length = strlen(name), end = strlen(note_ending);
    return length > end && strcmp(name + length - end, note_ending) == 0;
}

/* As many bytes as there are, up to `most`; negative where they cannot be read. */
static ssize_t read_up_to(int fd, char *to, size_t most) {
    size_t length = 0;
    ssize_t got;
    do {
        got = read(fd, to + length, most - length);
        if (got > 0) length += (size_t)got;
    } while ((got > 0 && length < most) || (got < 0 && errno == EINTR));
    return got < 0 ? got : (ssize_t)length;
}

static void make_blanks(char *text, size_t length) {
    for (size_t i = 0; i < length; i++)
        if (text[i] < ' ' || text[i] > '~' || text[i] == '"' || text[i] == '\\') text[i] = ' ';
}

/* Without a word that goes on behind `length`, unless it is all there is. */
static size_t whole_words(const char *text, size_t length) {
    size_t end = length;
    while (end > 0 && text[end] != ' ') end--;
    return end > 0 ? end : length;
}

/* The text stands between quotes. */
static uint8_t *words_of(const char *quoted, size_t length, const char **why) {
    uint8_t query[GORBIHESH_REWRITE_QUERY_MOST], room[GORBIHESH_PARSE_ROOM];
    gorbihesh_answer a =
        gorbihesh_parse(GORBIHESH_OR, GORBIHESH_WORDS, (const uint8_t *)note_field, strlen(note_field), NULL, 0,
                        (const uint8_t *)quoted, length, query, sizeof query, room, sizeof room);
    if (a.refusal == GORBIHESH_DONE) return (uint8_t *)copy_of((const char *)query, a.length);
    *why = gorbihesh_words(a.refusal);
    return NULL;
}

uint8_t *read_note(int fd, const char **why) {
    char quoted[QUOTE + NOTE_MOST + QUOTE], *text = quoted + QUOTE;
    ssize_t got = read_up_to(fd, text, NOTE_MOST + 1); /* one more tells that it is longer */
    if (got < 0) {
        *why = strerror(errno);
        return NULL;
    }
    size_t length = (size_t)got;
    make_blanks(text, length);
    if (length > NOTE_MOST) {
        *why = "it is longer than 1,022 bytes, and the words behind them do not count";
        length = whole_words(text, NOTE_MOST);
    }
    quoted[0] = text[length] = '"';
    return words_of(quoted, QUOTE + length + QUOTE, why);
}
