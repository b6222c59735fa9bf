/* Writes catalogue lists. */
#include "catalogue.h"

#include "memory.h"
#include "names.h"
#include "note.h"
#include "query.h"

#include <stdlib.h>

enum { WORD_MOST = 255 }; /* bytes of a word: the analyzer cuts longer ones, each piece a word of its own */

static const char *const names[FIELDS] = {"path", "name", "ext", "kind", note_field, "all", "size", "day"};

const char default_field[] = "path";

int field_named(const char *name, size_t length) {
    int field = 0;
    while (field < FIELDS && (strlen(names[field]) != length || memcmp(names[field], name, length) != 0)) field++;
    return field;
}

int is_number_field(int field) { return field == SIZE || field == DAY; }

int is_field(const char *name) {
    for (int field = 0; field < FIELDS; field++)
        if (are_same_but_for_capitals(names[field], name)) return 1;
    return 0;
}

/* A record that is being written, and which fields it has. */
typedef struct {
    gorbihesh_list *to;
    char has[FIELDS];
} writer;

static void put_text(writer *w, int field, uint32_t position, const char *text, size_t length) {
    w->has[field] = 1;
    gorbihesh_list_word(w->to, names[field], strlen(names[field]), position, text, length);
}

static void put_number(writer *w, int field, int64_t n) {
    w->has[field] = 1;
    gorbihesh_list_whole(w->to, names[field], strlen(names[field]), n);
}

static void put_words(writer *w, const char *path) {
    uint32_t position = 0;
    while (*path != 0) {
        size_t length = 0;
        while (length < WORD_MOST && is_letter((unsigned char)path[length])) length++;
        if (length > 0) put_text(w, PATH, position++, path, length);
        path += length > 0 ? length : 1;
    }
}

/* The name, its ending, and the folders before it. */
static void put_names(writer *w, const char *path) {
    uint32_t depth = 0;
    for (const char *slash; (slash = strchr(path, '/')) != NULL; path = slash + 1)
        put_text(w, KIND, depth++, path, (size_t)(slash - path));
    put_text(w, NAME, 0, path, strlen(path));
    const char *dot = strrchr(path, '.');
    if (dot != NULL && dot != path && dot[1] != 0) put_text(w, EXT, 0, dot + 1, strlen(dot + 1));
}

static void put_note_word(writer *w, uint32_t position, const uint8_t *from, const uint8_t *to) {
    put_text(w, NOTE, position, (const char *)from, (size_t)(to - from));
}

/* The stored query of a note: a term of one word, a phrase of several, or of none nothing. */
static void put_note(writer *w, part query) {
    if (query.tag != GORBIHESH_TERM_TAG && query.tag != GORBIHESH_PHRASE_TAG) return;
    for (const uint8_t *at = part_at(query.body).end; at < query.end; at = part_at(at).end) {
        part word = part_at(at);
        if (word.tag == GORBIHESH_TEXT_TAG) put_note_word(w, 0, word.body, word.end);
        else put_note_word(w, position_of(word), text_of(word), word.end);
    }
}

/* A size beyond a signed number is the greatest one. */
static int64_t whole_of(uint64_t size) { return size > INT64_MAX ? INT64_MAX : (int64_t)size; }

static int write_record(writer *w, const file *f, const uint8_t *note) {
    char *path = form_of(f->path);
    make_small(path);
    memset(w->has, 0, sizeof w->has);
    gorbihesh_list_begin(w->to);
    put_words(w, path);
    put_names(w, path);
    if (note != NULL) put_note(w, part_at(note));
    put_text(w, ALL, 0, "files", strlen("files"));
    put_number(w, SIZE, whole_of(f->size));
    put_number(w, DAY, f->day);
    free(path);
    return gorbihesh_list_end(w->to);
}

static gorbihesh_list *next_list(catalogue *c, size_t first) {
    c->at = with_place(c->at, c->count, &c->places, sizeof *c->at);
    part_list *next = &c->at[c->count++];
    next->first = first;
    gorbihesh_list_start(&next->list, must_have(malloc(GORBIHESH_LIST_MOST)), GORBIHESH_LIST_MOST);
    return &next->list;
}

/* Behind the last list, or in a new one; false where no list holds it. */
static int add_record(catalogue *c, const file *f, const uint8_t *note, size_t number) {
    writer w = {c->count > 0 ? &c->at[c->count - 1].list : next_list(c, number), {0}};
    int answer = write_record(&w, f, note);
    if (answer == GORBIHESH_LIST_FULL) {
        w.to = next_list(c, number);
        answer = write_record(&w, f, note);
    }
    if (answer != GORBIHESH_LIST_DONE) return 0;
    for (int field = 0; field < FIELDS; field++) c->having[field] += (size_t)w.has[field];
    return 1;
}

/* The words of the note on a file. Its path is the file's and more, and so comes behind it. */
static const uint8_t *note_on(const tree *t, size_t number) {
    const char *path = t->at[number].path;
    size_t length = strlen(path);
    for (size_t low = number + 1, high = t->count; low < high;) {
        size_t middle = low + (high - low) / 2;
        int order = strncmp(t->at[middle].path, path, length);
        if (order == 0) order = strcmp(t->at[middle].path + length, note_ending);
        if (order == 0) return t->at[middle].note;
        if (order < 0) low = middle + 1;
        else high = middle;
    }
    return NULL;
}

/* With its note or, if it does not fit so, without. */
static int is_catalogued(tree *t, catalogue *c, const file *f, const uint8_t *note, size_t number) {
    if (add_record(c, f, note, number)) return 1;
    if (note == NULL || !add_record(c, f, NULL, number)) return 0;
    add_notice(&t->left_out, f->path, "note on a file", "its path is too long for a catalogue record with these words");
    return 1;
}

void make_catalogue(tree *t, catalogue *c) {
    size_t kept = 0;
    memset(c, 0, sizeof *c);
    for (size_t i = 0; i < t->count; i++) {
        file f = t->at[i];
        if (is_catalogued(t, c, &f, note_on(t, i), kept)) {
            t->at[kept++] = f;
        } else {
            add_notice(&t->left_out, f.path, "file", "its path is too long for a catalogue record");
            free_file(&f);
        }
    }
    t->count = kept;
    sort_notices(&t->left_out);
}

void free_catalogue(catalogue *c) {
    for (size_t i = 0; i < c->count; i++) free(c->at[i].list.bytes);
    free(c->at);
}

gorbihesh_answer parse_selector(const char *field, size_t field_length, const char *text, size_t length, uint8_t *out,
                                size_t out_len, uint8_t *room, size_t room_len) {
    static const uint8_t fields[] = {
        GORBIHESH_KEYWORD, 4, 'n', 'a', 'm', 'e', GORBIHESH_KEYWORD, 3, 'e', 'x', 't',
        GORBIHESH_KEYWORD, 4, 'k', 'i', 'n', 'd', GORBIHESH_KEYWORD, 3, 'a', 'l', 'l',
        GORBIHESH_WORDS,   4, 'n', 'o', 't', 'e'};
    return gorbihesh_parse(GORBIHESH_OR, GORBIHESH_SIMPLE, (const uint8_t *)field, field_length, fields,
                           sizeof fields, (const uint8_t *)text, length, out, out_len, room, room_len);
}
