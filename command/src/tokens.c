/* Finds the words and signs of a selector. */
#include "tokens.h"

#include <string.h>

static int is_space(char c) { return c == ' ' || (c >= '\t' && c <= '\r'); }

static int ends_word(char c) { return is_space(c) || (c != 0 && strchr("!():^\"~[]{}*?", c) != NULL); }

static size_t length_of_word(const char *at, const char *end) {
    const char *to = at;
    while (to < end && (to == at || !ends_word(*to))) to += *to == '\\' && to + 1 < end ? 2 : 1;
    return (size_t)(to - at);
}

static size_t length_of_quoted(const char *at, const char *end) {
    const char *to = at + 1;
    while (to < end && *to != '"') to += *to == '\\' && to + 1 < end ? 2 : 1;
    return (size_t)(to - at) + (to < end);
}

int is_same_text(token t, const char *text) {
    return t.length == strlen(text) && memcmp(t.at, text, t.length) == 0;
}

static int is_operator(token t) {
    return is_same_text(t, "AND") || is_same_text(t, "OR") || is_same_text(t, "NOT");
}

static int is_pair(const char *at, const char *end) {
    return end - at >= 2 && at[0] == at[1] && (at[0] == '&' || at[0] == '|');
}

token token_from(const char *at, const char *end) {
    while (at < end && is_space(*at)) at++;
    if (at == end) return (token){NO_TOKEN, at, 0};
    if (is_pair(at, end)) return (token){OPERATOR, at, 2};
    switch (*at) {
    case '+':
    case '-': return (token){SIGN, at, 1};
    case '!': return (token){OPERATOR, at, 1};
    case '(': return (token){OPEN, at, 1};
    case ')': return (token){CLOSE, at, 1};
    case ':': return (token){COLON, at, 1};
    case '^': return (token){CARET, at, 1};
    case '"': return (token){QUOTED, at, length_of_quoted(at, end)};
    default: break;
    }
    token word = {WORD, at, length_of_word(at, end)};
    if (is_operator(word)) word.kind = OPERATOR;
    return word;
}

size_t unescape(token t, char *to, size_t most) {
    size_t length = 0;
    for (size_t i = 0; i < t.length && length < most; i++) {
        if (t.at[i] == '\\' && i + 1 < t.length) i++;
        to[length++] = t.at[i];
    }
    return length;
}
