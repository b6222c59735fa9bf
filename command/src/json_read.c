/* Reads JSON. */
#include "json_read.h"

#include "memory.h"

#include <stdlib.h>
#include <string.h>

enum { DEPTH_MOST = 64 };

json_reader start_json(const char *text, size_t length) { return (json_reader){text, text + length, 1, 1}; }

static void spoil(json_reader *j) {
    j->is_sound = 0;
    j->at = j->end;
}

/* The next byte that is no blank, or 0. */
static char peek(json_reader *j) {
    while (j->at < j->end && strchr(" \t\r\n", *j->at) != NULL && *j->at != 0) j->at++;
    return j->at < j->end ? *j->at : 0;
}

static int takes(json_reader *j, char c) {
    if (peek(j) != c || c == 0) return 0;
    j->at++;
    return 1;
}

int json_opens(json_reader *j, char bracket) {
    if (!takes(j, bracket)) {
        spoil(j);
        return 0;
    }
    j->is_first = 1;
    return 1;
}

int json_has_more(json_reader *j, char closing) {
    int is_first = j->is_first;
    j->is_first = 0;
    if (!j->is_sound || takes(j, closing)) return 0;
    if (!is_first && !takes(j, ',')) spoil(j);
    return j->is_sound;
}

/* Of a hex digit, or -1. */
static int hex_value(char c) {
    const char *digits = "0123456789abcdefABCDEF", *at = c == 0 ? NULL : strchr(digits, c);
    if (at == NULL) return -1;
    return at - digits < 16 ? (int)(at - digits) : (int)(at - digits) - 6;
}

/* Four hex digits of a byte, or -1. */
static int code_at(json_reader *j) {
    int code = 0;
    if (j->end - j->at < 4) return -1;
    for (int i = 0; i < 4; i++) {
        int digit = hex_value(*j->at++);
        if (digit < 0) return -1;
        code = 16 * code + digit;
    }
    return code <= 0xFF ? code : -1;
}

/* The byte that an escape stands for, behind its \; or -1. */
static int escaped_byte(json_reader *j) {
    static const char from[] = "\"\\/bfnrt", to[] = "\"\\/\b\f\n\r\t";
    char c = j->at < j->end ? *j->at++ : 0;
    if (c == 'u') return code_at(j);
    const char *at = c == 0 ? NULL : strchr(from, c);
    return at == NULL ? -1 : (unsigned char)to[at - from];
}

char *json_text(json_reader *j, size_t *length) {
    char *text = NULL;
    size_t count = 0, places = 0;
    int is_open = takes(j, '"');
    while (is_open && j->at < j->end && *j->at != '"') {
        int c = (unsigned char)*j->at++;
        if (c < 0x20 || c >= 0x80) c = -1;
        if (c == '\\') c = escaped_byte(j);
        if (c < 0) spoil(j);
        text = with_place(text, count + 1, &places, 1);
        text[count++] = (char)c;
    }
    if (!is_open || !takes(j, '"')) spoil(j);
    text = with_place(text, count, &places, 1);
    text[count] = 0;
    if (length != NULL) *length = count;
    return text;
}

char *json_text_or_null(json_reader *j) {
    if (peek(j) != 'n') return json_text(j, NULL);
    json_skip(j);
    return NULL;
}

char *json_key(json_reader *j) {
    char *key = json_text(j, NULL);
    if (!takes(j, ':')) spoil(j);
    return key;
}

uint64_t json_number(json_reader *j) {
    uint64_t n = 0;
    char c = peek(j);
    if (c < '0' || c > '9') spoil(j);
    for (; j->at < j->end && *j->at >= '0' && *j->at <= '9'; j->at++) {
        uint64_t digit = (uint64_t)(*j->at - '0');
        if (n > (UINT64_MAX - digit) / 10) {
            spoil(j);
            return 0;
        }
        n = 10 * n + digit;
    }
    return n;
}

/* A number with a sign, a point or an exponent, or true, false or null. */
static void skip_word(json_reader *j) {
    const char *from = j->at;
    while (j->at < j->end && strchr("+-.0123456789abcdefghijklmnopqrstuvwxyzE", *j->at) != NULL && *j->at != 0) j->at++;
    if (j->at == from) spoil(j);
}

static void skip_within(json_reader *j, int depth) {
    char c = peek(j), closing = c == '{' ? '}' : ']';
    if (depth == 0) spoil(j);
    if (c == '"') {
        free(json_text(j, NULL));
    } else if (c != '{' && c != '[') {
        skip_word(j);
    } else {
        json_opens(j, c);
        while (json_has_more(j, closing)) {
            if (c == '{') free(json_key(j));
            skip_within(j, depth - 1);
        }
    }
}

void json_skip(json_reader *j) { skip_within(j, DEPTH_MOST); }

int json_ends(json_reader *j) { return j->is_sound && peek(j) == 0 && j->at == j->end; }
