/* messages.h: what a session says to its terminal, as typed messages of its link. Who has no terminal says it on standard error. */
#ifndef SAMHOST_SESSION_MESSAGES_H
#define SAMHOST_SESSION_MESSAGES_H

#include <stdbool.h>
#include <stddef.h>
#include <stdint.h>

#include "sulgrevad.h"

struct document;
struct session;

enum { MESSAGES_VERSION = 1 }; /* of the messages, as the first one says */

/* What there is to say: the kind of a message, and its fields but for the words. What a kind has not is 0 or NULL. */
struct event {
    enum sam_note_kind kind;
    enum sam_note_code code;
    uint16_t tag;
    uint32_t request;
    uint64_t number;
    const char *path, *copy;
};

/* A message for the terminal that waits to be put; or one that has room for the longest, and waits for the write that it answers. */
struct message {
    struct message *next;
    uint32_t request; /* that is to be answered */
    size_t len;
    uint8_t bytes[];
};

/* The messages of a session. */
struct messages {
    struct message *waiting; /* to be put, the oldest first */
    unsigned missing;        /* those that there was no memory for */
};

/* Has what is said become messages of a session, from now on; NULL: has it go to standard error. */
void listen_for_messages(struct session *session);

/* Has it go to standard error again; first what was gathered. */
void say_gathered(struct session *session);

/* Puts a message behind those that wait, with words for people, which may be NULL. Returns whether there is memory for it. */
bool put_message(struct session *session, const struct event *event, const char *words);

/* Has the first message stand before all that wait: it says where the terminal has come to, by the session's name. Returns whether there is
 * memory for it. */
bool put_first_message(struct session *session, const char *name);

/* Says what happened: to the terminal of the session that listens, by a message with a sentence for people; else by that sentence on
 * standard error. And the same of what has no kind of its own. */
void tell(const struct event *event, const char *format, ...);
#define say(...) tell(&(struct event){.kind = SAM_NOTE_SAID}, __VA_ARGS__)

/* Says the messages that wait, as soon as a terminal has come. */
void put_messages(struct session *session);

/* Says how many messages there was no memory for, if there are some. */
void say_missing(struct messages *messages);

/* Notes that the next write of a file answers this request. Returns whether there is memory for that. */
bool expect_write(struct document *document, uint32_t request);

/* Answers a write, and the request for it. Words may be empty. */
void answer_write(struct session *session, struct event event, const char *format, ...);

void free_messages(struct messages *messages);

#endif
