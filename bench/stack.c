/* How much stack a call uses: it gets a stack of its own, filled with a pattern, and the deepest byte that is not the pattern
   any more is looked for. A call that does nothing is taken off. The call is made once before, so that no symbol is looked up
   on that stack. */
#include <string.h>
#include <ucontext.h>
#include "stack.h"

enum { SIZE = 1 << 16, PATTERN = 0xa5 };
static uint8_t stack[SIZE];

static void nothing(void)
{
}

static size_t depth(void (*call)(void))
{
    ucontext_t here, there;
    memset(stack, PATTERN, SIZE);
    getcontext(&there);
    there.uc_stack.ss_sp = stack;
    there.uc_stack.ss_size = SIZE;
    there.uc_link = &here;
    makecontext(&there, call, 0);
    swapcontext(&here, &there);
    size_t unused = 0;
    while (unused < SIZE && stack[unused] == PATTERN)
        unused++;
    return SIZE - unused;
}

size_t stack_use(void (*call)(void))
{
    call();
    return depth(call) - depth(nothing);
}
