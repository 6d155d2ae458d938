/* file_requests.h: does what messages of the terminal ask: adds files to a session that has begun, finds names that complete a path. */
#ifndef SAMHOST_SESSION_FILE_REQUESTS_H
#define SAMHOST_SESSION_FILE_REQUESTS_H

#include <stdbool.h>
#include <stddef.h>
#include <stdint.h>

struct session;

/* Does what a message of the terminal asks. Returns whether there was memory for it: else nothing has changed. */
bool do_message(struct session *session, const uint8_t *bytes, size_t len);

/* Refuses what a message asks for. Returns whether there was memory for that. */
bool refuse(struct session *session, uint32_t request, int error);

/* Adds a file to a session that has begun, unless it is there, and hands out its tag. Nothing has changed after an error. */
int join_file(struct session *session, const char *path, uint16_t *tag);

#endif
