/* How deep a call goes into a painted stack of its own. */
#include "stack.h"

#include <string.h>
#include <ucontext.h>

enum { PAINT = 0xa5 };

static char stack[1 << 16];
static char *pointer;
static char *(*measured)(void);

static void run(void) { pointer = measured(); }

size_t stack_used(char *(*caller)(void))
{
    ucontext_t here, there;
    memset(stack, PAINT, sizeof stack);
    measured = caller;
    getcontext(&there);
    there.uc_stack.ss_sp = stack;
    there.uc_stack.ss_size = sizeof stack;
    there.uc_link = &here;
    makecontext(&there, run, 0);
    swapcontext(&here, &there);
    const char *lowest = stack;
    while (*lowest == (char)PAINT)
        lowest++;
    return (size_t)(pointer - lowest);
}
