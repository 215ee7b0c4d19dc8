/* What the table of operations names. */
#include "shared.h"

extern int step __attribute__((visibility("hidden")));

int twice(int number) { return number * step; }
int thrice(int number) { return number + twice(number); }
