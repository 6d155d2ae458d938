/* saves.h: writes a file when the terminal says so. */
#ifndef SAMHOST_DISK_SAVES_H
#define SAMHOST_DISK_SAVES_H

#include <stdint.h>

#include "disk/paths.h"

struct document;
struct known;
struct session;

/* Writes a file, as the terminal has said, unless it is hidden, and answers. */
void write_file(struct session *session, uint16_t tag);

/* Saves the texts aside that an earlier terminal has not written, and reports them. */
void report_taken(struct session *session);

/* Remembers what a document has read from a path or written to it. */
int remember_content(struct document *document, const char *path, struct content content);

/* A path that is seen from the folder in which the session began, in memory of its own; where that folder is gone, a whole path that leads
 * nowhere. NULL where memory is out. */
char *from_folder(struct session *session, const char *path);

/* The path of a file as it is named now, in memory of its own. NULL where it has none, with the reason in `error`. */
char *path_of(struct session *session, uint16_t tag, int *error);

/* What is known of a path; NULL where nothing is. */
struct known *find_known(const struct document *document, const char *path);

#endif
