/* A call on another stack: jig/onstack.c has it for a desk, board/onstack.c for a board. */
#ifndef ONSTACK_H
#define ONSTACK_H

#include <stddef.h>

/* Runs a call with the `size` bytes from `low` on for its stack. */
void painted_call(void (*call)(void), void *low, size_t size);

#endif
