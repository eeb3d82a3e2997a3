/* Answers the console's lines from standard input; the exit status. */
int lines(void);
