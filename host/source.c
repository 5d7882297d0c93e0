#include "source.h"

#include "message.h"

#include <errno.h>
#include <fcntl.h>
#include <string.h>
#include <unistd.h>

int is_standard(const char *name) { return strcmp(name, "-") == 0; }

FILE *open_source(const char *name) { return is_standard(name) ? stdin : fopen(name, "rb"); }

void close_source(FILE *file) {
    if (file != stdin) fclose(file);
}

int hold_places(void) {
    int held = 1;
    for (int place = STDIN_FILENO; place <= STDERR_FILENO; place++) {
        if (fcntl(place, F_GETFD) >= 0 || errno != EBADF) continue;
        held = held && open("/dev/null", place == STDIN_FILENO ? O_WRONLY : O_RDONLY) == place;
    }
    return held;
}

int expect_one_standard(const char *command, char *const *names, size_t count) {
    size_t standard = 0;
    for (size_t k = 0; k < count; k++) standard += (size_t)is_standard(names[k]);
    return standard <= 1 ? DONE : complain("%s: - is given %zu times, and standard input can be read once", command, standard);
}
