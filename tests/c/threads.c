/* Threads that call at once, each with its own selector, list and buffers. Every thread asks the same again and again,
 * and must always get what it got when it was alone.
 */
#include "check.h"
#include "gorbihesh.h"

#include <pthread.h>
#include <stdlib.h>
#include <string.h>

enum { THREADS = 4, TURNS = 400, QUERY = 4096, ROWS = 64 };

typedef struct {
    const char *text;
    uint8_t letter; /* which word its records hold */
    gorbihesh_answer answers[3];
    uint8_t parsed[QUERY], rewritten[QUERY], rows[ROWS];
} work;

static work alone[THREADS] = {
    {.text = "aa bb -cc \"dd ee\"^2.5", .letter = 'a'},
    {.text = "bb AND (aa OR bb)^0.125 bb bb", .letter = 'b'},
    {.text = "+cc^3.4028235e38 +cc^1e-45 cc", .letter = 'c'},
    {.text = "((dd) OR (dd)) \"aa\" wi-fi", .letter = 'd'},
};

/* Two records, the second with the word. */
static size_t put_list(uint8_t letter, uint8_t *list) {
    const uint8_t bytes[] = {0x40, 0, 0, 0x40, 0, 16, 0x41, 0, 13, 0x10, 0, 1, 'f', 0x12, 0, 6, 0, 0, 0, 0, letter, letter};
    memcpy(list, bytes, sizeof bytes);
    return sizeof bytes;
}

static void do_work(work *w, uint8_t *room) {
    const uint8_t *text = (const uint8_t *)w->text;
    uint8_t list[64];
    size_t n = put_list(w->letter, list);
    memset(w->parsed, 0, QUERY);
    memset(w->rewritten, 0, QUERY);
    memset(w->rows, 0, ROWS);
    w->answers[0] = gorbihesh_parse(GORBIHESH_OR, GORBIHESH_SIMPLE, (const uint8_t *)"f", 1, NULL, 0, text, strlen(w->text),
                                    w->parsed, QUERY, room, gorbihesh_parse_room());
    w->answers[1] = gorbihesh_rewrite(w->parsed, w->answers[0].length, w->rewritten, QUERY, room, gorbihesh_rewrite_room());
    w->answers[2] = gorbihesh_select(w->rewritten, w->answers[1].length, list, n, w->rows, ROWS, room, gorbihesh_select_room());
}

static int is_same(const work *a, const work *b) {
    return memcmp(a->answers, b->answers, sizeof a->answers) == 0 && memcmp(a->parsed, b->parsed, QUERY) == 0 &&
           memcmp(a->rewritten, b->rewritten, QUERY) == 0 && memcmp(a->rows, b->rows, ROWS) == 0;
}

static uint8_t *new_room(void) {
    size_t n = gorbihesh_parse_room() + gorbihesh_rewrite_room() + gorbihesh_select_room() + 1;
    uint8_t *room = malloc(n);
    if (room == NULL) exit(2);
    return room;
}

/* Counts the turns that differ: checks are not made from several threads. */
static void *turns(void *number) {
    const work *expected = &alone[*(int *)number];
    uint8_t *room = new_room();
    work w = *expected;
    size_t wrong = 0;
    for (int i = 0; i < TURNS; i++) {
        do_work(&w, room);
        wrong += !is_same(&w, expected);
    }
    free(room);
    return wrong == 0 ? NULL : number;
}

static void by_itself(void) {
    uint8_t *room = new_room();
    for (int i = 0; i < THREADS; i++) {
        check_about("thread %d by itself", i);
        do_work(&alone[i], room);
        CHECK(alone[i].answers[0].refusal == 0);
        CHECK(alone[i].answers[1].refusal == 0 && alone[i].answers[1].rounds > 0);
        CHECK(alone[i].answers[2].refusal == 0 && alone[i].answers[2].count == 1);
    }
    free(room);
}

int main(void) {
    pthread_t threads[THREADS];
    int numbers[THREADS];
    by_itself();
    for (int i = 0; i < THREADS; i++) {
        numbers[i] = i;
        if (pthread_create(&threads[i], NULL, turns, &numbers[i]) != 0) exit(2);
    }
    for (int i = 0; i < THREADS; i++) {
        void *wrong = NULL;
        check_about("thread %d beside others", i);
        CHECK(pthread_join(threads[i], &wrong) == 0);
        CHECK(wrong == NULL);
    }
    return check_done("threads");
}
