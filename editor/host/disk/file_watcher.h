/* file_watcher.h: notices that another program has changed or removed a file which the terminal has open, and reads a file anew where a
 * message asks for it. */
#ifndef SAMHOST_DISK_FILE_WATCHER_H
#define SAMHOST_DISK_FILE_WATCHER_H

#include <stdbool.h>
#include <stdint.h>

#include "disk/paths.h"

struct session;

/* The marks of a file at the last look, and what it was known to have when it was told that another program changed it. */
struct watch {
    struct content marks;
    bool is_told;
    struct content told;
    int gone; /* at how many looks the file was gone since it was there last: the second is told */
};

/* In how many milliseconds files are to be looked at; -1 where none is watched, or nobody is there to be told. */
int64_t watch_is_due_in(const struct session *session);

/* If that is due, looks at the files, and tells of those that another program has changed or removed. */
void watch_files(struct session *session);

/* Adds what the file of a tag has on disk now as a file of its own, and answers by a message. Returns whether there was memory for it. */
bool reload_file(struct session *session, uint32_t request, uint16_t tag);

/* The terminal has put such a file, `anew`, in the place of the text of `tag`. Returns whether there was memory for it. */
bool accept_reload(struct session *session, uint16_t tag, uint64_t anew);

#endif
