/* Where the program begins: it goes through its table of operations. */
#include "shared.h"

struct operation {
    const char *name;
    int (*apply)(int number);
    int calls;
};

int total; /* common: state.c has it too */

extern int absent __attribute__((weak));
int *maybe = &absent; /* null, since nothing defines it */

struct operation operations[] = {{"twice", twice, 0}, {"thrice", thrice, 0}};
const char *const *greeting = greetings;

void _start(void) {
    for (int i = 0; i < limit(); i++) {
        operations[i % 2].calls++;
        total += operations[i % 2].apply(*greet(i));
    }
}
