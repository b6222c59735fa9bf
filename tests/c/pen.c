/* Writes stored bytes. */
#include "pen.h"

#include <stdio.h>
#include <stdlib.h>
#include <string.h>

static void must_fit(const pen *p, size_t n) {
    if (n <= PEN_MOST - p->len) return;
    fputs("the test writes more than its pen holds\n", stderr);
    exit(2);
}

void put_fill(pen *p, uint8_t byte, size_t n) {
    must_fit(p, n);
    memset(p->at + p->len, byte, n);
    p->len += n;
}

void put_bytes(pen *p, bytes b) {
    must_fit(p, b.len);
    if (b.len > 0) memcpy(p->at + p->len, b.at, b.len);
    p->len += b.len;
}

static unsigned digit(char c) {
    const char *digits = "0123456789ABCDEF";
    const char *at = c == 0 ? NULL : strchr(digits, c);
    if (at != NULL) return (unsigned)(at - digits);
    fprintf(stderr, "the test has no hex digit in '%c'\n", c);
    exit(2);
}

void put_hex(pen *p, const char *hex) {
    while (*hex != 0) {
        if (*hex == ' ') {
            hex++;
            continue;
        }
        put_fill(p, (uint8_t)(digit(hex[0]) * 16 + digit(hex[1])), 1);
        hex += 2;
    }
}

void wrap(pen *p, uint8_t tag, const char *prefix_hex) {
    static pen inner;
    inner = *p;
    p->len = 0;
    put_fill(p, tag, 1);
    put_fill(p, 0, 2);
    put_hex(p, prefix_hex);
    put_bytes(p, all(&inner));
    size_t length = p->len - 3;
    p->at[1] = (uint8_t)(length / 256 % 256);
    p->at[2] = (uint8_t)(length % 256);
}

bytes all(const pen *p) { return (bytes){p->at, p->len}; }

void put_deep(pen *p, size_t depth) {
    p->len = 0;
    put_hex(p, "06 0000");
    for (size_t i = 1; i < depth; i++) wrap(p, 0x05, "");
}

void put_long_term(pen *p, size_t n) {
    p->len = 0;
    put_fill(p, 'a', n - 10);
    wrap(p, 0x11, "");
    wrap(p, 0x01, "10 0001 66");
}
