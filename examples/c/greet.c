/* A library: strings, an array that needs padding, and a function that a program may replace. */
#include "shared.h"

const char *const greetings[3] = {"hello", "good morning", "good night"};
char board[5001] = "a board";

__attribute__((weak)) int limit(void) { return 3; }

const char *greet(int number) { return greetings[number % limit()]; }

__attribute__((constructor)) static void prepare(void) { board[0] = *greet(0); }
