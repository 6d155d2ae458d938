/* recovery.h: reports what earlier sessions left, and offers the texts that they saved to the terminal. */
#ifndef SAMHOST_DISK_RECOVERY_H
#define SAMHOST_DISK_RECOVERY_H

#include <stdbool.h>
#include <stdint.h>

struct session;

/* Reports what stands beside the files, and in the user's own folders, of sessions and writes that were broken off. Where the session
 * `offers` them, the texts that were not written become files of it. */
void report_left(struct session *session, bool offers);

/* Says where the texts of a file are that has joined a session which had begun. They are not offered. */
void report_left_of(struct session *session, uint16_t tag);

#endif
