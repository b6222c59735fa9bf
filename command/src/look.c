/* Looks at the text of a selector. */
#include "look.h"

#include "names.h"
#include "print.h"
#include "tokens.h"

enum { BRACKETS_MOST = 24 };

/* The field of the clauses in each bracket that is open; [0] is outside all. */
typedef struct {
    desk *desk;
    const char *end;
    token fields[BRACKETS_MOST + 1];
    size_t depth;
    token field; /* of the next clause */
    size_t found;
} looker;

/* A token, or a part of it, between backquotes. */
static void point_at(looker *l, token t) {
    l->found++;
    fputs("  look: `", stdout);
    print_typed(stdout, t.at, t.length);
    putchar('`');
}

static size_t name_field(token field, char name[GORBIHESH_FIELD_MOST]) {
    return unescape(field, name, GORBIHESH_FIELD_MOST);
}

static void look_at_field(looker *l, token t) {
    char name[GORBIHESH_FIELD_MOST];
    int field = field_named(name, name_field(t, name));
    if (field != FIELDS && !is_number_field(field) && l->desk->lists->having[field] > 0) return;
    point_at(l, t);
    if (is_number_field(field)) puts(" holds numbers, which the text of a selector cannot ask for");
    else puts(" is a field that no file has; the fields are path, name, ext, kind, note and all");
}

/* Typed AND, OR and NOT are operators; in other letters they are words like others. */
static void look_at_joining_word(looker *l, token t) {
    static const char *const operators[] = {"AND", "OR", "NOT"};
    char typed[4] = "";
    if (t.kind != WORD || t.length >= sizeof typed) return;
    memcpy(typed, t.at, t.length);
    for (size_t i = 0; i < sizeof operators / sizeof *operators; i++) {
        if (!are_same_but_for_capitals(typed, operators[i])) continue;
        point_at(l, t);
        printf(" is a word to look for; the operator is %s, in capitals\n", operators[i]);
    }
}

/* The parser itself says whether anything of the clause is kept. */
static void look_at_clause(looker *l, token t) {
    char name[GORBIHESH_FIELD_MOST];
    size_t length = name_field(l->field, name);
    uint32_t refusal = read_selector(l->desk, name, length, t.at, t.length);
    if (refusal != GORBIHESH_DONE || l->desk->parsed[0] != GORBIHESH_MATCH_NONE_TAG) return;
    int is_empty = t.kind == QUOTED && t.length == strlen("\"\"");
    point_at(l, t);
    fputs(" is left out: it has no word of `", stdout);
    print_typed(stdout, name, length);
    puts(is_empty || field_named(name, length) != PATH ? "`"
                                                       : "`, whose words are letters alone; ask by name: or kind:");
}

static void look_at_sign(looker *l, token t) {
    const char *behind = t.at + t.length;
    if (behind == l->end || token_from(behind, l->end).at == behind) return;
    point_at(l, t);
    puts(" stands before a blank, and belongs to what follows the blank");
}

static void open_bracket(looker *l, token t) {
    token next = token_from(t.at + 1, l->end);
    if (next.kind == CLOSE) {
        point_at(l, (token){OPEN, t.at, (size_t)(next.at - t.at) + 1});
        puts(" is left out: an empty bracket");
    }
    if (l->depth < BRACKETS_MOST) l->fields[++l->depth] = l->field;
}

static void close_bracket(looker *l) {
    if (l->depth > 0) l->depth--;
    l->field = l->fields[l->depth];
}

/* A word or a quote, which is a clause's text unless a colon makes it a field. What follows it. */
static const char *look_at_word(looker *l, token t) {
    token next = token_from(t.at + t.length, l->end);
    if (t.kind == WORD && next.kind == COLON) {
        look_at_field(l, t);
        l->field = t;
        return next.at + 1;
    }
    if (l->field.at == l->fields[l->depth].at) look_at_joining_word(l, t);
    look_at_clause(l, t);
    l->field = l->fields[l->depth];
    return t.at + t.length;
}

/* What follows a ^ is a numeral. */
static const char *behind_numeral(const looker *l, token caret) {
    token numeral = token_from(caret.at + 1, l->end);
    return numeral.at + numeral.length;
}

size_t look_at_text(desk *d, const char *text, size_t length) {
    token path = {WORD, default_field, strlen(default_field)};
    looker l = {d, text + length, {path}, 0, path, 0};
    for (const char *at = text; at < l.end;) {
        token t = token_from(at, l.end);
        at = t.at + t.length;
        switch (t.kind) {
        case SIGN: look_at_sign(&l, t); break;
        case OPEN: open_bracket(&l, t); break;
        case CLOSE: close_bracket(&l); break;
        case CARET: at = behind_numeral(&l, t); break;
        case WORD:
        case QUOTED: at = look_at_word(&l, t); break;
        default: break;
        }
    }
    return l.found;
}
