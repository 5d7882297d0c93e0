#include "temporary.h"

#include <dirent.h>
#include <errno.h>
#include <fcntl.h>
#include <limits.h>
#include <signal.h>
#include <stdio.h>
#include <string.h>
#include <sys/stat.h>
#include <time.h>
#include <unistd.h>

#define FORM ".lup-%ld-%u.tmp"
/* The same to be read, each number with as many digits as it can have. */
#define READ_FORM ".lup-%10ld-%2u.tmp"
#define MOST_TRIES 100
/* A file takes seconds to write. Another machine's processes cannot be seen from here, so what they may be writing is told by its age alone. */
#define LEFT_SECONDS 60

int open_temporary(int folder, mode_t mode, char *name, size_t size) {
    int descriptor = -1;
    for (unsigned k = 0; k < MOST_TRIES; k++) {
        snprintf(name, size, FORM, (long)getpid(), k);
        descriptor = openat(folder, name, O_WRONLY | O_CREAT | O_EXCL | O_CLOEXEC, mode);
        if (descriptor >= 0 || errno != EEXIST) break;
    }
    return descriptor;
}

/* The process that a temporary name tells; 0 where the name is not exactly of the form. */
static long process_of(const char *name) {
    char same[NAME_MAX + 1];
    long process = 0;
    unsigned k = 0;
    if (sscanf(name, READ_FORM, &process, &k) != 2 || process <= 0 || k >= MOST_TRIES) return 0;
    snprintf(same, sizeof same, FORM, process, k);
    return strcmp(name, same) == 0 && process == (pid_t)process ? process : 0;
}

/* Of a process that is gone, our own, a plain file, and unchanged for a minute. */
static int is_left(int folder, const char *name) {
    struct stat there;
    long process = process_of(name);
    if (process == 0 || kill((pid_t)process, 0) == 0 || errno != ESRCH) return 0;
    if (fstatat(folder, name, &there, AT_SYMLINK_NOFOLLOW) != 0) return 0;
    return S_ISREG(there.st_mode) && there.st_uid == geteuid() && difftime(time(NULL), there.st_mtime) > LEFT_SECONDS;
}

void remove_left(int folder) {
    int own = openat(folder, ".", O_RDONLY | O_DIRECTORY | O_CLOEXEC);
    DIR *listed = own >= 0 ? fdopendir(own) : NULL;
    if (listed == NULL) {
        if (own >= 0) close(own);
        return;
    }
    for (struct dirent *entry = readdir(listed); entry != NULL; entry = readdir(listed))
        if (is_left(folder, entry->d_name)) unlinkat(folder, entry->d_name, 0);
    closedir(listed);
}
