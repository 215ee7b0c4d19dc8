/* A library that is opened later: it counts in the program's counter, and keeps pointers to all that it uses. */
#include "shared.h"

struct use {
    const char *what;
    const void *place;
};

static int opened;
struct use uses[] = {{"counter", &total}, {"board", &board[16]}, {"greetings", greetings}, {"own", &opened}};

__attribute__((constructor)) static void open_it(void) { total += ++opened; }
__attribute__((destructor)) static void close_it(void) { total -= opened--; }
