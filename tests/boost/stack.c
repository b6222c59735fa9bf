/* Prints the stack that a numeral uses: the call runs on a painted stack, and what is no longer paint was used. It links the archive of the crate
 * `probe`, whose call hands the text on to `numeral` and packs the answer.
 */
#define _XOPEN_SOURCE 600 /* makecontext */
#include <stddef.h>
#include <stdint.h>
#include <stdio.h>
#include <stdlib.h>
#include <string.h>
#include <ucontext.h>

enum { STACK = 1 << 16, PAINT = 0xA5 };

uint64_t probe_numeral(const uint8_t *text, size_t length);

static uint8_t stack[STACK] __attribute__((aligned(64)));
static ucontext_t caller, called;
static const char *text;
static uint64_t answer;

static void call_nothing(void) { answer = 0; }

static void call_numeral(void) { answer = probe_numeral((const uint8_t *)text, strlen(text)); }

static size_t used_by(void (*call)(void)) {
    memset(stack, PAINT, STACK);
    if (getcontext(&called) != 0) exit(2);
    called.uc_stack.ss_sp = stack;
    called.uc_stack.ss_size = STACK;
    called.uc_link = &caller;
    makecontext(&called, call, 0);
    if (swapcontext(&caller, &called) != 0) exit(2);
    size_t untouched = 0;
    while (untouched < STACK && stack[untouched] == PAINT) untouched++;
    return STACK - untouched;
}

int main(void) {
    static const char *texts[] = {
        "2", "0.5", "-1e-7", "3.1415927", "3.14159265358979", "1.17549435e-38", "1e38",
        "1234567890123456789012345678901234567890", "1234567890123456789012345678901234567e38",
        "0.12345678901234567890123456789012345e-9", "7.006492321624085354618647916449580e-46", "infinity",
    };
    size_t most = 0;
    text = "2";
    call_numeral(); /* the first call of a program may use stack to find what it calls */
    used_by(call_numeral);
    for (size_t i = 0; i < sizeof texts / sizeof *texts; i++) {
        text = texts[i];
        size_t nothing = used_by(call_nothing), all = used_by(call_numeral);
        size_t used = all > nothing ? all - nothing : 0;
        if (used > most) most = used;
        printf("%-42s %5zu bytes of stack, bits %08x\n", text, used, (unsigned)answer);
    }
    printf("the most: %zu bytes\n", most);
    return 0;
}
