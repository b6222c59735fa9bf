/* Where the words and signs of a selector stand in its text. For what check says about the text; what a selector
 * means, and picks, gorbihesh_parse alone decides.
 */
#ifndef TOKENS_H
#define TOKENS_H

#include <stddef.h>

enum token_kind { WORD, QUOTED, SIGN, OPERATOR, OPEN, CLOSE, COLON, CARET, NO_TOKEN };

typedef struct {
    enum token_kind kind;
    const char *at; /* as it was typed, quotes and \ included */
    size_t length;
} token;

/* The token from `at` on, of a text that gorbihesh_parse takes; NO_TOKEN at its end. */
token token_from(const char *at, const char *end);

/* A token's text without its \ characters; of at most `most` bytes. Answers its length. */
size_t unescape(token t, char *to, size_t most);

int is_same_text(token t, const char *text);

#endif
