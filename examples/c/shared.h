/* What the program and its two libraries know of each other. */
extern const char *const greetings[3]; /* libgreet: a table of strings */
extern char board[5001];               /* libgreet: no capability has these bounds exactly, so it is padded */
const char *greet(int number);         /* libgreet */
int limit(void);                       /* weak in libgreet, and again in the program */

extern int total; /* the program: common, in two of its files */
int twice(int number), thrice(int number);
