/* Fenced slices. */
#include "lend.h"

#include "check.h"

#include <stdio.h>
#include <stdlib.h>
#include <string.h>
#include <valgrind/memcheck.h>

enum { FENCE = 64, DIRT = 251 };

static uint8_t fence_byte(size_t i) { return (uint8_t)(0xC3 ^ (i * 29)); }

/* Dirty bytes: none is 0, which a room must become, and neighbours differ. They repeat after DIRT bytes, so that most
 * are copied from those before them; valgrind is slow.
 */
static void fill_dirty(uint8_t *at, size_t len) {
    size_t done = len < DIRT ? len : DIRT;
    for (size_t i = 0; i < done; i++) at[i] = (uint8_t)((i * 37 + 11) % 255 + 1);
    while (done < len) {
        size_t more = done < len - done ? done : len - done;
        memcpy(at + done, at, more);
        done += more;
    }
}

static void *must_have(void *p) {
    if (p != NULL) return p;
    fputs("no memory\n", stderr);
    exit(2);
}

static void fill_fences(const lent *l) {
    for (size_t i = 0; i < FENCE; i++) {
        l->block[i] = fence_byte(i);
        l->block[FENCE + l->len + i] = fence_byte(i + 7);
    }
    VALGRIND_MAKE_MEM_NOACCESS(l->block, FENCE);
    VALGRIND_MAKE_MEM_NOACCESS(l->block + FENCE + l->len, FENCE);
}

static lent lend(size_t len) {
    lent l = {NULL, len, NULL, NULL};
    l.block = must_have(malloc(len + 2 * FENCE));
    l.was = must_have(malloc(len + 1));
    l.at = l.block + FENCE;
    fill_fences(&l);
    return l;
}

lent lend_copy(bytes b) {
    if (b.at == NULL) return (lent){NULL, 0, NULL, NULL};
    lent l = lend(b.len);
    memcpy(l.at, b.at, b.len);
    memcpy(l.was, b.at, b.len);
    return l;
}

lent lend_dirty(size_t len) {
    if (len == NULL_LENGTH) return (lent){NULL, 0, NULL, NULL};
    lent l = lend(len);
    fill_dirty(l.at, len);
    fill_dirty(l.was, len);
    VALGRIND_MAKE_MEM_UNDEFINED(l.at, len);
    return l;
}

int is_defined(const lent *l, size_t n) {
    return l->at == NULL || VALGRIND_CHECK_MEM_IS_DEFINED(l->at, n) == 0;
}

void check_fences(const lent *l) {
    if (l->at == NULL) return;
    VALGRIND_MAKE_MEM_DEFINED(l->block, l->len + 2 * FENCE);
    int before = 1, behind = 1;
    for (size_t i = 0; i < FENCE; i++) {
        before &= l->block[i] == fence_byte(i);
        behind &= l->block[FENCE + l->len + i] == fence_byte(i + 7);
    }
    CHECK(before);
    CHECK(behind);
}

int is_unchanged(const lent *l, size_t from) {
    return l->at == NULL || from >= l->len || memcmp(l->at + from, l->was + from, l->len - from) == 0;
}

void give_back(lent *l) {
    free(l->block);
    free(l->was);
    *l = (lent){NULL, 0, NULL, NULL};
}
