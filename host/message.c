#include "message.h"

#include <stdarg.h>
#include <stdio.h>

int complain(const char *format, ...) {
    va_list items;
    fputs("lup: ", stderr);
    va_start(items, format);
    vfprintf(stderr, format, items);
    va_end(items);
    fputc('\n', stderr);
    return MISUSED;
}

int finish_output(void) {
    if (fflush(stdout) != 0 || ferror(stdout)) return complain("standard output cannot be written");
    return DONE;
}
