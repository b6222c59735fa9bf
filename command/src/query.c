/* Reads stored queries as gorbihesh_parse writes them, which are sound. */
#include "query.h"

#include "gorbihesh.h"
#include "names.h"
#include "print.h"

#include <string.h>

enum { HEADER = 3, BOOST_BYTES = 4, POSITION_BYTES = 4 };

part part_at(const uint8_t *at) {
    size_t body = (size_t)at[1] << 8 | at[2];
    return (part){at, HEADER + body, at[0], at + HEADER, at + HEADER + body};
}

part without_boost(part query) {
    while (query.tag == GORBIHESH_BOOST_TAG) query = part_at(query.body + BOOST_BYTES);
    return query;
}

part first_clause(part boolean) { return part_at(part_at(boolean.body).end); }

part query_of(part clause) { return part_at(clause.body); }

static uint32_t number_at(const uint8_t *at) {
    return (uint32_t)at[0] << 24 | (uint32_t)at[1] << 16 | (uint32_t)at[2] << 8 | at[3];
}

uint32_t position_of(part word) { return number_at(word.body); }

const uint8_t *text_of(part word) { return word.body + POSITION_BYTES; }

size_t count_clauses(part boolean, int kind) {
    size_t count = 0;
    for (const uint8_t *at = part_at(boolean.body).end; at < boolean.end; at = part_at(at).end)
        count += part_at(at).tag == kind;
    return count;
}

/* Parts that hold parts are entered, and others passed. */
static size_t step_over(part p) {
    switch (p.tag) {
    case GORBIHESH_FIELD_TAG:
    case GORBIHESH_TEXT_TAG:
    case GORBIHESH_WORD_TAG:
    case GORBIHESH_MINIMUM_TAG: return p.length;
    case GORBIHESH_BOOST_TAG: return HEADER + BOOST_BYTES;
    default: return HEADER;
    }
}

void make_texts_small(uint8_t *query, size_t length) {
    for (size_t at = 0; at < length;) {
        part p = part_at(query + at);
        size_t text = at + HEADER + (p.tag == GORBIHESH_WORD_TAG ? POSITION_BYTES : 0);
        if (p.tag == GORBIHESH_TEXT_TAG || p.tag == GORBIHESH_WORD_TAG)
            for (; text < at + p.length; text++) query[text] = (uint8_t)to_small(query[text]);
        at += step_over(p);
    }
}

/* A text that needs no quotes: no sign of the language is in it. */
static int is_bare(const char *text, size_t length) {
    for (size_t i = 0; i < length; i++) {
        int c = (unsigned char)text[i];
        int is_digit = c >= '0' && c <= '9';
        if (!is_letter(c) && !is_digit && c != '.' && c != '_' && c != '%' && (c != '-' || i == 0)) return 0;
    }
    return length > 0;
}

static void print_field(FILE *to, part field) {
    print_typed(to, (const char *)field.body, (size_t)(field.end - field.body));
    putc(':', to);
}

static void print_term(FILE *to, part term) {
    part field = part_at(term.body), text = part_at(field.end);
    const char *bytes = (const char *)text.body;
    size_t length = (size_t)(text.end - text.body);
    print_field(to, field);
    if (is_bare(bytes, length)) {
        print_typed(to, bytes, length);
        return;
    }
    putc('"', to);
    print_quotable(to, bytes, length);
    putc('"', to);
}

static void print_phrase(FILE *to, part phrase) {
    part field = part_at(phrase.body);
    print_field(to, field);
    putc('"', to);
    for (const uint8_t *at = field.end; at < phrase.end; at = part_at(at).end) {
        part word = part_at(at);
        const uint8_t *text = text_of(word);
        if (at > field.end) putc(' ', to);
        print_quotable(to, (const char *)text, (size_t)(word.end - text));
    }
    putc('"', to);
}

static void print_boost(FILE *to, const uint8_t *bytes) {
    uint32_t bits = number_at(bytes);
    float boost;
    memcpy(&boost, &bits, sizeof boost);
    fprintf(to, boost < 0 ? "^\\%.9g" : "^%.9g", (double)boost);
}

void print_clause(FILE *to, part query) {
    int is_bracket = query.tag == GORBIHESH_BOOLEAN_TAG;
    if (is_bracket) putc('(', to);
    print_query(to, query);
    if (is_bracket) putc(')', to);
}

static void print_clauses(FILE *to, part boolean) {
    for (part clause = first_clause(boolean);; clause = part_at(clause.end)) {
        fputs(clause.tag == GORBIHESH_MUST_TAG ? "+" : clause.tag == GORBIHESH_MUST_NOT_TAG ? "-" : "", to);
        print_clause(to, query_of(clause));
        if (clause.end == boolean.end) return;
        putc(' ', to);
    }
}

void print_query(FILE *to, part query) {
    switch (query.tag) {
    case GORBIHESH_TERM_TAG: print_term(to, query); break;
    case GORBIHESH_PHRASE_TAG: print_phrase(to, query); break;
    case GORBIHESH_BOOLEAN_TAG: print_clauses(to, query); break;
    case GORBIHESH_BOOST_TAG:
        print_clause(to, part_at(query.body + BOOST_BYTES));
        print_boost(to, query.body);
        break;
    default: fputs("nothing", to);
    }
}
