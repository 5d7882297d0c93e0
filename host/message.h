/* Exit statuses, and messages on standard error. */
#ifndef MESSAGE_H
#define MESSAGE_H

/* INCOMPLETE: done, with inputs that were missing or damaged. HELP_ASKED is no exit status: a command's words ask for its help. */
enum { DONE = 0, REFUSED = 1, MISUSED = 2, INCOMPLETE = 3, HELP_ASKED = 4 };

/* Writes 'lup: ' and the message, as a line; gives MISUSED. */
int complain(const char *format, ...) __attribute__((format(printf, 1, 2)));

/* Hands standard output over: DONE, or MISUSED with a message where it could not be written. */
int finish_output(void);

#endif
