/* handshake.h: takes connections, and reads what they say first: the hello of a terminal's link, or what another samhost asks for. */
#ifndef SAMHOST_NET_HANDSHAKE_H
#define SAMHOST_NET_HANDSHAKE_H

#include <signal.h>
#include <stddef.h>
#include <stdint.h>

#include "session/session_directory.h"
#include "sulgrevad.h"

struct session;

enum {
    MOST_CALLERS = 8,   /* connections without a hello */
    MOST_WAITERS = 64,  /* connections that wait until a file is closed */
    CALLER_ROOM = 8192, /* bytes of what a connection asks for */
    MACHINE_ROOM = 256  /* bytes of the name of a machine, and the zero after it */
};

/* What another samhost asks for begins with a mark, and the length of its words in two bytes; each word ends in a NUL. It is `list`, `open`
 * with a path, a line and a word that has it wait, `changed` for the files that are not written, or `end`. The answer is a line. */
#define QUESTION_MARK "\x89samask\n"
enum {
    QUESTION_MARK_LEN = 8,
    QUESTION_HEAD = 10,
    ANSWER_ROOM = 8192 /* bytes of the longest answer */
};

/* A connection that has not said all of its hello. */
struct caller {
    int socket; /* -1 where there is none */
    int64_t since;
    uint32_t what; /* what a hello that is whole asks for, and of which session */
    uint8_t id[SAM_LINK_ID_BYTES];
    size_t len;
    uint8_t bytes[CALLER_ROOM];
};

/* Who waits until a file is closed. */
struct waiter {
    int socket; /* -1 where nobody does */
    uint16_t tag;
};

/* The name of this machine. */
void name_machine(char machine[MACHINE_ROOM]);

/* Takes connections that wait, those that are the user's. */
void accept_callers(struct session *session);

/* Reads what a connection without a hello says, and does it. */
void hear_caller(struct session *session, struct caller *caller);

/* Waits for the hello of a terminal at standard input, and has the link take it. Returns STATUS_OK; or the exit status, where the hello is
 * refused, or none comes, which is said. */
int hear_streams(struct session *session, const sigset_t *mask);

/* Waits a while for the hello of a terminal at standard input, and refuses it, since no session of its name is there: else that would look
 * like a dead line. Returns the exit status. */
int refuse_hello(sam_status why);

/* Before a file is closed: says to those who wait for it whether it was written. */
void report_closing(struct session *session, uint16_t tag);

/* Tells who waits for files that are closed. */
void report_closed(struct session *session);

/* Ends connections that have said too little for too long. Returns in how many milliseconds the next one is due; -1 where there is none. */
int64_t drop_callers(struct session *session);

/* The newest connection is over. */
void drop_line(struct session *session);

/* The name of the session whose link has an id. */
void name_of_id(const uint8_t id[SAM_LINK_ID_BYTES], char name[NAME_DIGITS + 1]);

#endif
