/* fallback_directories.h: folders for what can't stand beside its file: the user's own, so that no other user reads or names what is
 * there. */
#ifndef SAMHOST_DISK_FALLBACK_DIRECTORIES_H
#define SAMHOST_DISK_FALLBACK_DIRECTORIES_H

#include <stdbool.h>

/* Where copies may be that can't stand beside their file, the best first. All but the first are for temporary files. */
enum { OWN_FOLDERS = 3 };

/* One of these folders, counted from 0, with the slash at its end, in memory of its own. It is made where `makes` says so. It has to be the
 * user's own, and nobody else's to read. */
int own_folder(int which, bool makes, char **folder);

/* The path of the first of them, there or not, without the slash, in memory of its own; NULL where nothing names one. */
char *state_path(void);

/* What names of copies of a file begin with in such a folder, in memory of its own: a number of the whole path, and the name. NULL where
 * there is no memory. */
char *own_front(const char *path);

#endif
