#include "output.h"

#include "message.h"
#include "source.h"
#include "temporary.h"

#include <errno.h>
#include <fcntl.h>
#include <stdint.h>
#include <stdlib.h>
#include <string.h>
#include <sys/stat.h>
#include <unistd.h>

/* A signal that ends the program would leave the temporary file. */
static void hold_signals(output *o) {
    sigset_t held;
    sigemptyset(&held);
    sigaddset(&held, SIGHUP);
    sigaddset(&held, SIGINT);
    sigaddset(&held, SIGTERM);
    sigaddset(&held, SIGPIPE);
    sigprocmask(SIG_BLOCK, &held, &o->signals);
    signal(SIGXFSZ, SIG_IGN);
}

void end_output(output *o) {
    if (o->file != NULL && o->file != stdout) fclose(o->file);
    if (o->temporary[0] != '\0') unlinkat(o->folder, o->temporary, 0);
    if (o->folder >= 0) close(o->folder);
    o->file = NULL, o->temporary[0] = '\0', o->folder = -1;
    sigprocmask(SIG_SETMASK, &o->signals, NULL);
}

/* The folder of a name as a path that ends with '.', to be freed, and the name's last part; NULL where there is no memory. */
static char *folder_of(const char *name, const char **last) {
    const char *slash = strrchr(name, '/');
    size_t length = slash != NULL ? (size_t)(slash - name) + 1 : 0;
    *last = name + length;
    char *path = length < SIZE_MAX - 2 ? malloc(length + 2) : NULL;
    if (path == NULL) return NULL;
    memcpy(path, name, length);
    strcpy(path + length, ".");
    return path;
}

/* The folder is opened before anything is written: it has to be brought to the disk in the end. */
static int open_folder(output *o) {
    char *path = folder_of(o->name, &o->last);
    o->folder = path != NULL ? open(path, O_RDONLY | O_DIRECTORY | O_CLOEXEC) : -1;
    int why = errno;
    free(path);
    return o->folder >= 0 ? DONE : complain("%s: its folder cannot be opened: %s", o->name, strerror(why));
}

/* The mode is set only where it differs: there are file systems on which all files have one. */
static int keep_mode(int descriptor, const struct stat *old) {
    struct stat made;
    if (fstat(descriptor, &made) != 0) return 0;
    return ((made.st_mode ^ old->st_mode) & 0777) == 0 || fchmod(descriptor, old->st_mode & 0777) == 0;
}

/* A file of its own in the folder, with the mode of the file that it replaces, if there is one. */
static int open_file(output *o, const struct stat *old) {
    int descriptor = open_temporary(o->folder, old != NULL ? old->st_mode & 0777 : 0666, o->temporary, sizeof o->temporary);
    if (descriptor < 0) {
        o->temporary[0] = '\0';
        return complain("%s: no file can be made beside it: %s", o->name, strerror(errno));
    }
    if (old != NULL && !keep_mode(descriptor, old)) {
        complain("%s: its mode cannot be kept: %s", o->name, strerror(errno));
    } else if ((o->file = fdopen(descriptor, "wb")) != NULL) {
        return DONE;
    } else {
        complain("%s: it cannot be written: %s", o->name, strerror(errno));
    }
    close(descriptor);
    return MISUSED;
}

int open_output(const char *name, output *o) {
    struct stat old;
    *o = (output){.name = name, .folder = -1};
    if (name[0] == '\0') return complain("the name of the file to write is empty");
    int standard = is_standard(name), is_there = !standard && lstat(name, &old) == 0;
    if (is_there && !S_ISREG(old.st_mode)) return complain("%s: what has this name is no plain file; it stays as it is", name);
    if (standard) {
        /* There is nothing to be left, and a reader may keep the program waiting. */
        sigprocmask(SIG_BLOCK, NULL, &o->signals);
        o->file = stdout;
        return DONE;
    }
    hold_signals(o);
    if (open_folder(o) == DONE) {
        remove_left(o->folder);
        if (open_file(o, is_there ? &old : NULL) == DONE) return DONE;
    }
    end_output(o);
    return MISUSED;
}

int settle_output(output *o) {
    if (o->file == stdout) return finish_output();
    int failed = ferror(o->file) || fflush(o->file) != 0 || fsync(fileno(o->file)) != 0;
    int why = errno;
    if (fclose(o->file) != 0 && !failed) failed = 1, why = errno;
    o->file = NULL;
    return failed ? complain("%s: it cannot be written: %s", o->name, strerror(why)) : DONE;
}

int name_output(output *o) {
    if (o->file == stdout) return DONE;
    if (renameat(o->folder, o->temporary, o->folder, o->last) != 0) return complain("%s: it cannot be given its name: %s", o->name, strerror(errno));
    o->temporary[0] = '\0';
    return DONE;
}

/* EINVAL: a file system that has no such call for folders. */
int settle_name(const output *o) {
    if (o->file == stdout || fsync(o->folder) == 0 || errno == EINVAL) return DONE;
    return complain("%s: it is written, and its folder cannot be brought to the disk: %s", o->name, strerror(errno));
}

int keep_output(output *o) {
    int kept = settle_output(o) == DONE && name_output(o) == DONE && settle_name(o) == DONE;
    end_output(o);
    return kept ? DONE : MISUSED;
}

/* The directory of a name, and the name's last part. */
static int find_directory(const char *name, struct stat *directory, const char **last) {
    char *path = folder_of(name, last);
    int found = path != NULL && stat(path, directory) == 0;
    free(path);
    return found;
}

static int same_file(const struct stat *a, const struct stat *b) { return a->st_dev == b->st_dev && a->st_ino == b->st_ino; }

/* The file that a name stands for, '-' for a standard stream; a stream that is no plain file, as a terminal, is not counted. */
static int find_file(const char *name, int stream, struct stat *found) {
    if (!is_standard(name)) return stat(name, found) == 0;
    return fstat(stream, found) == 0 && S_ISREG(found->st_mode);
}

/* stream: what '-' stands for in place of the second name; in place of the first it is standard output. */
static int names_one_file(const char *a, const char *b, int stream) {
    struct stat first, second;
    const char *last_a, *last_b;
    if (find_file(a, STDOUT_FILENO, &first) && find_file(b, stream, &second) && same_file(&first, &second)) return 1;
    if (is_standard(a) || is_standard(b)) return 0;
    if (!find_directory(a, &first, &last_a) || !find_directory(b, &second, &last_b)) return 0;
    return same_file(&first, &second) && strcmp(last_a, last_b) == 0;
}

int written_as_one(const char *a, const char *b) {
    if (is_standard(a) && is_standard(b)) return 1;
    return names_one_file(a, b, STDOUT_FILENO);
}

FILE *told_on(const char *a, const char *b) { return is_standard(a) || (b != NULL && is_standard(b)) ? stderr : stdout; }

int has_directory(const char *name) {
    struct stat directory;
    const char *last;
    return find_directory(name, &directory, &last);
}

int expect_apart(const char *written, const char *read) {
    return names_one_file(written, read, STDIN_FILENO) ? complain("%s: it is to be read and to be written; nothing was done", read) : DONE;
}
