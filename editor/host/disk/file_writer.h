/* file_writer.h: puts a text into a file. */
#ifndef SAMHOST_DISK_FILE_WRITER_H
#define SAMHOST_DISK_FILE_WRITER_H

#include <stdbool.h>
#include <sys/types.h>
#include <time.h>

#include "disk/paths.h"

#define TEMPORARY ".sam-"    /* what names of files begin with that are not whole yet */
#define SAVED ".sam-saved"   /* what comes after the name of a file whose text was not written */
#define OLD ".sam-old"       /* what comes after the name of a file for what it was, while it is written in place */
#define THEIRS ".sam-theirs" /* what comes after the name of a file for another program's text, in whose place one was written */

/* A text that was saved aside. The user may put a file of his own in its place; by these marks the host knows its own. */
struct copy {
    char *path; /* NULL where there is none */
    dev_t device;
    ino_t inode;
    struct timespec written;
    struct content content;
    bool is_temporary; /* it is in a folder for temporary files, which may be in memory alone */
    bool is_unnoted;   /* the journal has another one, or none */
};

/* A text that is to stand in a file. */
struct request {
    const struct text *text;
    const char *path;     /* with no symbolic link at its end */
    struct content known; /* what the file may have: another content is another program's */
    dev_t disk;           /* of the folder in which the file was; 0 where it wasn't there, or that isn't known */
    mode_t mode;          /* of a file that isn't there yet */
    bool is_theirs;       /* that is another program's, to be kept beside the file */
    struct content found; /* out, at IS_CHANGED: what the file has */
    char *old;            /* out: the path of what the file was, where it is broken now; the caller's. Else NULL */
    char *theirs;         /* out: the path of what another program has written there; the caller's. Else NULL */
    bool is_unsure;       /* out: the disk may have another text than the file seems to have */
};

/* Puts a text into a file, whole or not at all. IS_CHANGED where the file has what is not known: then it stays as it is. */
int put_file(struct request *request);

/* Puts a text into a new file beside a file or, where that can't be, in a folder of the user's own. It is named after the file and the
 * suffix; a number follows where that is there already. Beside the file it is as open to others as another one is (`like`), else the user's
 * alone. Hands out the copy, whose path is in memory of the caller's. */
int keep(const struct text *text, const char *name, const char *like, const char *suffix, struct copy *copy);

/* Whether a text that was saved has the name that keep gives to copies of a file: by that a later session finds it. */
bool is_named_after(const struct copy *copy, const char *name);

/* Puts another text in the place of a copy. */
int keep_again(const struct text *text, struct copy *copy);

#endif
