/* How deep a call goes into a painted stack of its own. */
#ifndef STACK_H
#define STACK_H

#include <stddef.h>

/* The stack pointer of the caller, to be taken in the function that makes the measured call. */
#define STACK_POINTER()                                  \
    __extension__({                                      \
        char *here;                                      \
        __asm__ volatile("mov %%rsp, %0" : "=r"(here));  \
        here;                                            \
    })

/* Runs `caller` on the painted stack. It returns its STACK_POINTER(); the octets below that place which lost their paint are the
 * use of what it called, return address included. */
size_t stack_used(char *(*caller)(void));

#endif
