/* paths.h: names of files, and what stands in them. */
#ifndef SAMHOST_DISK_PATHS_H
#define SAMHOST_DISK_PATHS_H

#include <stdbool.h>
#include <stddef.h>
#include <stdint.h>
#include <sys/types.h>

#include "limits.h"

struct stat;

struct text {
    uint8_t *bytes;
    size_t len;
};

/* What a file has, by which a change is found: the hash of its bytes, or where they can't be read that of its marks (device, inode,
 * times of change). Not sure: a write has failed. The hash is that of what was written, but the disk may have anything. */
struct content {
    enum { NOT_THERE, READ, NOT_READ, NOT_SURE } kind;
    uint64_t hash, len;
};

/* Words put together, in memory of their own; NULL where there is no memory. */
char *formatted(const char *format, ...);

/* The folder of a path, with the slash at its end, in memory of its own: "" for a name alone. */
char *folder_of(const char *path);

/* The last part of a path. */
const char *last_of(const char *path);

/* Opens the folder of a path, where it can be, else -1; and what the system says of it, else an error number. */
int open_folder(const char *path);
int stat_folder(const char *path, struct stat *status);

/* The device that the folder of a path is on; 0 where that isn't known. */
dev_t disk_of_folder(const char *path);

#define CUT "cut"          /* what names of copies begin with of what was cut last */
#define UNNAMED "unnamed-" /* the same of a file that has no name; its tag follows */
#define OF_NO_FILE "/"     /* what comes behind these names, so that no file has them as its path */

/* Whether a name, of so many bytes, is UNNAMED and a number. */
bool is_unnamed(const char *name, size_t len);

/* What names of a text's copies begin with: the last part of its path, without OF_NO_FILE; of one that is too long its front, in whole
 * runes, and its hash, since other names may have that front. A file that is named as a text of no file gets a hash, too. */
void base_of(const char *path, char base[BASE_ROOM]);

/* A path without OF_NO_FILE, in memory of its own. */
char *bare_path(const char *path);

/* The path that symbolic links at the end of a path lead to, in memory of the caller's. Nothing needs to be there. */
int end_of_links(const char *path, char **end);

/* The hash of words. */
uint64_t hash_of(const char *words);

struct content content_of(const struct text *text);
struct content content_at(const char *path);

/* What a file has as far as its marks show: one that can't be read, is too long for a text, or isn't to be read. */
struct content marks_of(const struct stat *status);
bool is_same(struct content one, struct content other);

/* Reads all of an open file into memory of the caller's. TEXT_TOO_LONG where it has more than a text may have. */
int read_all(int file, struct text *text);

/* Has the disk have what a file has. Returns whether that is so. */
bool sync_file(const char *path);

/* Closes a file, where it is one, which is -1 then. */
void close_file(int *file);

#endif
