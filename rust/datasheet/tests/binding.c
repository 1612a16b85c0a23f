/* Prints the stack that the first and the second check of a rule book take, on a
 * painted stack. The first call of memset may have to find it: linked with
 * `-z lazy`, the dynamic linker does that on the caller's stack. */
#include <stdio.h>
#include <ucontext.h>

#include "tamarind.h"

static unsigned char stack[1 << 20];
static ucontext_t here, there;

static void check(void)
{
    static const uint32_t grammar[] = {3, 8, 1, 1, 1, 4, 2, 1, 2};
    static const uint32_t rules[] = {1, 9, 2, 2, 1, 2, 200, 1, 2, 4200};

    tamarind_check_rules(grammar, 9, rules, 10);
}

/* The stack is painted through a volatile pointer, so that no memset is called
 * for it. */
static size_t painted_check(void)
{
    volatile unsigned char *byte = stack;
    size_t i;

    for (i = 0; i < sizeof stack; i++)
        byte[i] = 0xA5;
    getcontext(&there);
    there.uc_stack.ss_sp = stack;
    there.uc_stack.ss_size = sizeof stack;
    there.uc_link = &here;
    makecontext(&there, check, 0);
    swapcontext(&here, &there);
    for (i = 0; byte[i] == 0xA5; i++)
        ;
    return sizeof stack - i;
}

int main(void)
{
    size_t first = painted_check();
    size_t second = painted_check();

    printf("%zu %zu\n", first, second);
    return 0;
}
