/* replay.h: makes a session again of its journal. */
#ifndef SAMHOST_JOURNAL_REPLAY_H
#define SAMHOST_JOURNAL_REPLAY_H

#include <stdbool.h>

struct session;

/* Why a session can't be made again of its journal. */
enum replay_fault {
    REPLAY_OK,
    REPLAY_UNFINISHED, /* the journal could not be written to its end; what it has is known */
    REPLAY_UNREADABLE,
    REPLAY_OTHER,      /* the journal is of another version */
    REPLAY_OTHER_FORM, /* and its records are of another form, so nothing is known of its texts */
    REPLAY_SHORT,      /* memory is out */
    REPLAY_NO_FOLDER,  /* the folder in which it began is gone */
    REPLAY_DIFFERS,
    REPLAY_DAMAGED /* a record is wrong that was on the disk, or it has no begin; what stands before that is known */
};

/* Makes a session again of its journal. */
enum replay_fault begin_again(struct session *session);

/* Puts a server in the place of one that has stopped: what its journal makes, which has nothing of what has stopped it. So it can say that.
 * Its connection is over. Returns whether it is made. */
bool begin_server_again(struct session *session);

#endif
