/* Temporary files: '.lup-PROCESS-NUMBER.tmp' in the folder of the file that they become. */
#ifndef TEMPORARY_H
#define TEMPORARY_H

#include <stddef.h>
#include <sys/types.h>

/* Makes a file of a name that none in the folder has yet; its descriptor, or -1 with errno. */
int open_temporary(int folder, mode_t mode, char *name, size_t size);

/* Removes what runs that were killed have left in the folder. A file that cannot be removed stays. */
void remove_left(int folder);

#endif
