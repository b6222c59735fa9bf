/* Runs of the three calls, with what holds of every call checked. */
#include "calls.h"

#include "check.h"
#include "pen.h"

#include <stdio.h>
#include <string.h>

enum { NUMBERS = 64 };

static uint8_t answered[OUTPUT];
static char given[NUMBERS];

setup plain_setup(void) {
    return (setup){GORBIHESH_OR, GORBIHESH_SIMPLE, TEXT("f"), NONE};
}

/* The first byte is 0, and each other one is as the byte before it. */
static int is_zeros(const lent *l) {
    return l->len == 0 || (l->at[0] == 0 && memcmp(l->at, l->at + 1, l->len - 1) == 0);
}

static void check_input(lent *input) {
    check_fences(input);
    CHECK(is_unchanged(input, 0));
    give_back(input);
}

static void check_room(lent *room) {
    CHECK(is_defined(room, room->len));
    check_fences(room);
    CHECK(is_zeros(room));
    give_back(room);
}

/* Only the answer's bytes have changed, and none where the call is refused. */
static outcome check_output(gorbihesh_answer a, lent *out) {
    CHECK(a.refusal == 0 || (a.length == 0 && a.count == 0 && a.rounds == 0));
    CHECK(a.refusal < NUMBERS);
    if (a.refusal < NUMBERS) given[a.refusal] = 1;
    size_t length = a.length;
    CHECK(length <= out->len && length <= sizeof answered);
    if (length > out->len || length > sizeof answered) length = 0;
    CHECK(is_defined(out, length));
    check_fences(out);
    CHECK(is_unchanged(out, length));
    if (length > 0) memcpy(answered, out->at, length);
    give_back(out);
    return (outcome){a, answered};
}

outcome parse_in(setup s, bytes text, size_t out_len, size_t room_len) {
    lent field = lend_copy(s.field), fields = lend_copy(s.fields), input = lend_copy(text);
    lent out = lend_dirty(out_len), room = lend_dirty(room_len);
    gorbihesh_answer a = gorbihesh_parse(s.operator_, s.analyzer, field.at, field.len, fields.at, fields.len, input.at,
                                         input.len, out.at, out.len, room.at, room.len);
    check_input(&field);
    check_input(&fields);
    check_input(&input);
    check_room(&room);
    CHECK(a.count == 0);
    CHECK(a.rounds == 0);
    CHECK(a.place <= text.len && (a.place == 0 || (a.refusal >= 4 && a.refusal <= 17)));
    return check_output(a, &out);
}

typedef gorbihesh_answer rewriting(const uint8_t *, size_t, uint8_t *, size_t, uint8_t *, size_t);

static outcome rewrite_by(rewriting *call, bytes query, size_t out_len, size_t room_len) {
    lent input = lend_copy(query), out = lend_dirty(out_len), room = lend_dirty(room_len);
    gorbihesh_answer a = call(input.at, input.len, out.at, out.len, room.at, room.len);
    check_input(&input);
    check_room(&room);
    CHECK(a.count == 0 && a.place == 0);
    CHECK(a.refusal != 0 || a.rounds > 0);
    return check_output(a, &out);
}

outcome rewrite_in(bytes query, size_t out_len, size_t room_len) {
    return rewrite_by(gorbihesh_rewrite, query, out_len, room_len);
}

outcome rewrite_strictly_in(bytes query, size_t out_len, size_t room_len) {
    return rewrite_by(gorbihesh_rewrite_strict, query, out_len, room_len);
}

outcome pick_in(bytes query, bytes list, size_t rows_len, size_t room_len) {
    lent input = lend_copy(query), records = lend_copy(list);
    lent rows = lend_dirty(rows_len), room = lend_dirty(room_len);
    gorbihesh_answer a = gorbihesh_select(input.at, input.len, records.at, records.len, rows.at, rows.len, room.at,
                                          room.len);
    check_input(&input);
    check_input(&records);
    check_room(&room);
    CHECK(a.length == 4 * (uint64_t)a.count);
    CHECK(a.rounds == 0 && a.place == 0);
    return check_output(a, &rows);
}

outcome parse(setup s, bytes text) { return parse_in(s, text, OUTPUT, gorbihesh_parse_room()); }

outcome rewrite(bytes query) { return rewrite_in(query, OUTPUT, gorbihesh_rewrite_room()); }

outcome rewrite_strictly(bytes query) {
    return rewrite_strictly_in(query, OUTPUT, gorbihesh_rewrite_strict_room());
}

outcome pick(bytes query, bytes list) { return pick_in(query, list, OUTPUT, gorbihesh_select_room()); }

int is_refused(outcome o, uint32_t refusal) {
    if (o.answer.refusal != refusal) fprintf(stderr, "refusal %u, not %u\n", o.answer.refusal, refusal);
    return o.answer.refusal == refusal && refusal != 0;
}

int is_refused_at(outcome o, uint32_t refusal, uint32_t place) {
    if (o.answer.place != place) fprintf(stderr, "refusal %u at %u, not %u\n", o.answer.refusal, o.answer.place, place);
    return is_refused(o, refusal) && o.answer.place == place;
}

int is_stored(outcome o, const char *hex) {
    static pen expected;
    expected.len = 0;
    put_hex(&expected, hex);
    if (o.answer.refusal != 0) fprintf(stderr, "refusal %u, not bytes\n", o.answer.refusal);
    return o.answer.refusal == 0 && o.answer.length == expected.len && memcmp(o.bytes, expected.at, expected.len) == 0;
}

int is_rewritten(outcome o, const char *hex, uint32_t rounds) {
    if (o.answer.rounds != rounds) fprintf(stderr, "%u rounds, not %u\n", o.answer.rounds, rounds);
    return is_stored(o, hex) && o.answer.rounds == rounds;
}

int is_picked(outcome o, const char *rows) {
    static char said[8 * OUTPUT];
    size_t n = 0;
    said[0] = 0;
    for (uint32_t i = 0; i < o.answer.count; i++) {
        const uint8_t *b = o.bytes + (size_t)4 * i;
        unsigned row = (unsigned)b[0] << 24 | (unsigned)b[1] << 16 | (unsigned)b[2] << 8 | b[3];
        n += (size_t)snprintf(said + n, sizeof said - n, i == 0 ? "%u" : " %u", row);
    }
    int so = o.answer.refusal == 0 && strcmp(said, rows) == 0;
    if (!so) fprintf(stderr, "refusal %u, rows \"%.60s\", not \"%.60s\"\n", o.answer.refusal, said, rows);
    return so;
}

int was_given(uint32_t refusal) { return refusal < NUMBERS && given[refusal]; }
