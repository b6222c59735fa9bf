/* Names of files in ASCII, and back. */
#include "names.h"

#include "memory.h"

#include <stdlib.h>
#include <string.h>

int to_small(int c) { return c >= 'A' && c <= 'Z' ? c - 'A' + 'a' : c; }

int is_letter(int c) { return to_small(c) >= 'a' && to_small(c) <= 'z'; }

void make_small(char *text) {
    for (; *text != 0; text++) *text = (char)to_small((unsigned char)*text);
}

int are_same_but_for_capitals(const char *a, const char *b) {
    while (*a != 0 && to_small((unsigned char)*a) == to_small((unsigned char)*b)) a++, b++;
    return to_small((unsigned char)*a) == to_small((unsigned char)*b);
}

static int is_octal(char c) { return c >= '0' && c <= '7'; }

static int is_escape(const char *text) {
    return text[0] == '%' && text[1] >= '0' && text[1] <= '3' && is_octal(text[2]) && is_octal(text[3]);
}

void put_escape(char to[ESCAPE_LENGTH], unsigned char byte) {
    to[0] = '%';
    to[1] = (char)('0' + byte / 64);
    to[2] = (char)('0' + byte / 8 % 8);
    to[3] = (char)('0' + byte % 8);
}

static char escaped_byte(const char *escape) {
    return (char)(64 * (escape[1] - '0') + 8 * (escape[2] - '0') + (escape[3] - '0'));
}

static int stands_for_itself(const char *text) {
    unsigned char c = (unsigned char)*text;
    return c >= 0x20 && c < 0x7F && !is_escape(text);
}

char *form_of(const char *name) {
    char *form = must_have(malloc(ESCAPE_LENGTH * strlen(name) + 1)), *to = form;
    for (; *name != 0; name++) {
        if (stands_for_itself(name)) {
            *to++ = *name;
        } else {
            put_escape(to, (unsigned char)*name);
            to += ESCAPE_LENGTH;
        }
    }
    *to = 0;
    return form;
}

char *name_of(const char *printed) {
    char *name = must_have(malloc(strlen(printed) + 1)), *to = name;
    while (*printed != 0) {
        if (is_escape(printed)) {
            *to++ = escaped_byte(printed);
            printed += ESCAPE_LENGTH;
            continue;
        }
        if (printed[0] == '\\' && printed[1] != 0) printed++;
        *to++ = *printed++;
    }
    *to = 0;
    return name;
}
