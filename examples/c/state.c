/* The program's counter, and a limit in the place of the library's. */
#include "shared.h"

int total; /* common: main.c has it too */
__attribute__((visibility("hidden"))) int step = 2;

int limit(void) { return step; }

__attribute__((constructor)) static void begin(void) { total = step; }
