/* How much stack a call takes. */
#ifndef STACK_H
#define STACK_H

#include <stddef.h>

/* The bytes of stack that a call wrote to, beyond those of calling an empty function. */
size_t stack_of(void (*call)(void));

#endif
