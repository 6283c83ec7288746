/* The call runs on a painted stack of its own; what is no longer painted was used. */
#define _XOPEN_SOURCE 700
#include "stack.h"

#include <string.h>
#include <ucontext.h>

enum { STACK = 1 << 20, PAINT = 0xa5 };

static unsigned char stack[STACK];

static void nothing(void) {}

static size_t painted_over(void (*call)(void)) {
    ucontext_t here, there;
    memset(stack, PAINT, STACK);
    getcontext(&there);
    there.uc_stack.ss_sp = stack;
    there.uc_stack.ss_size = STACK;
    there.uc_link = &here;
    makecontext(&there, call, 0);
    swapcontext(&here, &there);
    size_t free = 0;
    while (free < STACK && stack[free] == PAINT) free++;
    return STACK - free;
}

size_t stack_of(void (*call)(void)) { return painted_over(call) - painted_over(nothing); }
