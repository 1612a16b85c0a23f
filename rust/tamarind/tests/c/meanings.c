/* A second file with the header: what each number stands for. */
#include "tamarind.h"
#include "tamarind.h"

#include <stdio.h>

void print_meanings(void);

void print_meanings(void) {
    for (uint32_t number = 0; number < 100; number++)
        printf("%u %s\n", (unsigned)number, tamarind_meaning(number));
}
