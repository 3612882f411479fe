/* usage: stack SEED CALLS
 *
 * Makes CALLS random calls of each export of octets.h, as compare.c does, on a stack that was filled
 * with a pattern, and looks how much of the pattern is left. It prints a line for each export with
 * which more than MOST_STACK bytes were used. These bytes include the frames of the functions here
 * that make the call. The calls are made once before, because the dynamic linker uses the stack of
 * the first caller of memcpy to resolve it. The last line is `N passed, M failed`. */
#define _XOPEN_SOURCE 700
#include <ucontext.h>

#define main compare
#include "compare.c"
#undef main

#define MOST_STACK 1024
#define PATTERN 0xa5

static unsigned char stack[1 << 16];
static ucontext_t here, there;
static long calls;

static void make_calls(void) {
    for (long i = 0; i < calls; i++) {
        call();
    }
}

/* Returns how many bytes of the stack the calls of an export used. */
static size_t used(void) {
    size_t unused = 0;
    going = false;
    memset(stack, PATTERN, sizeof stack);
    if (getcontext(&there)) {
        abort();
    }
    there.uc_stack.ss_sp = stack;
    there.uc_stack.ss_size = sizeof stack;
    there.uc_link = &here;
    makecontext(&there, make_calls, 0);
    if (swapcontext(&here, &there)) {
        abort();
    }
    while (unused < sizeof stack && stack[unused] == PATTERN) {
        unused++;
    }
    return sizeof stack - unused;
}

int main(int argc, char **argv) {
    int failed = 0;
    state = argc > 1 ? strtoull(argv[1], NULL, 10) : 1;
    calls = argc > 2 ? atol(argv[2]) : 10000;
    for (which = 0; which < EXPORTS; which++) {
        size_t bytes;
        used();
        bytes = used();
        if (bytes > MOST_STACK) {
            printf("export %d used %lu bytes of stack\n", which, (unsigned long)bytes);
            failed++;
        }
    }
    printf("%d passed, %d failed\n", EXPORTS - failed, failed);
    return failed > 0;
}
