/* file_reader.h: reads files: those of the words at the start, and others that are asked for later. */
#ifndef SAMHOST_DISK_FILE_READER_H
#define SAMHOST_DISK_FILE_READER_H

#include <stdbool.h>
#include <stdint.h>
#include <sys/types.h>

struct session;
struct stat;
struct text;

/* Reads the files, and those below the folders, into the host. Returns the exit status: 0, or why the session can't begin. */
int add_files(struct session *session, char **paths, int count);

/* Tells when the files were written last. */
void tell_times(struct session *session);

/* Reads a whole file into memory of the caller's; a file that isn't there is empty. What is no regular file is not opened. */
int read_whole(const char *path, struct text *text);

/* The same of a file that is there and no symbolic link; hands out its marks, too. */
int read_unlinked(const char *path, struct text *text, struct stat *status);

/* The name of a path in the session, in memory of the caller's: the path, or of a long one its last runes after a sign that it was cut. */
char *shown_name(const char *path);

/* Adds a file that was read to the host, and hands out its tag. After an error nothing is added. */
int add_text(struct session *session, const char *path, const struct text *text, uint16_t *tag);

/* What two names of one file have in common: its device and inode, or where it isn't there those of its folder, and its name there. */
struct identity {
    dev_t device;
    ino_t inode;
    uint64_t name; /* its hash; 0 where the file is there */
};

enum { IDENTITY_ROOM = 56 };

/* An identity in words, between two blanks. */
void spell_identity(const struct identity *identity, char words[IDENTITY_ROOM]);

struct identity identity_of(const struct stat *status);

bool is_folder(const char *path);
int identify(const char *path, struct identity *identity);
bool is_one_file(const struct identity *one, const struct identity *other);

#endif
