/* What jig/stack.c asks of a host: a call on another stack. */
#define _XOPEN_SOURCE 700
#include <stdlib.h>
#include <ucontext.h>

#include "onstack.h"

void painted_call(void (*call)(void), void *low, size_t size) {
    static ucontext_t here, there;
    if (getcontext(&there) != 0) abort();
    there.uc_stack.ss_sp = low;
    there.uc_stack.ss_size = size;
    there.uc_link = &here;
    makecontext(&there, call, 0);
    if (swapcontext(&here, &there) != 0) abort();
}
