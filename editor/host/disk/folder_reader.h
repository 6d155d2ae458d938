/* folder_reader.h: reads the text files below a folder. */
#ifndef SAMHOST_DISK_FOLDER_READER_H
#define SAMHOST_DISK_FOLDER_READER_H

#include <stdbool.h>
#include <stddef.h>

#include "disk/file_reader.h"

struct session;

/* Files that were taken, or folders that were looked through. */
struct marks {
    struct identity *items;
    size_t count;
};

bool has_mark(const struct marks *marks, const struct identity *wanted);
int add_mark(struct marks *marks, const struct identity *identity);

/* Reads the text files below a folder into the host, but for those that were taken, and says how many it leaves out. Returns the exit
 * status. */
int add_folder(struct session *session, char *path, struct marks *marks);

#endif
