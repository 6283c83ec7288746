/* A mark in the instruction count: a system call that no kernel has, so that it does nothing where nobody counts. Callgrind, which sees no system
   calls, is asked instead for a dump. */
#ifndef MARK_H
#define MARK_H

#define MARK 0x5241494c

#if defined CALLGRIND
#include <valgrind/callgrind.h>
static inline void mark(void) { CALLGRIND_DUMP_STATS; }
#elif defined __x86_64__
static inline void mark(void) {
    long number = MARK;
    __asm__ volatile("syscall" : "+a"(number) : : "rcx", "r11", "memory");
}
#endif

#endif
