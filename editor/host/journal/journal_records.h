/* journal_records.h: what a journal has of a session beside the records of its server. */
#ifndef SAMHOST_JOURNAL_JOURNAL_RECORDS_H
#define SAMHOST_JOURNAL_JOURNAL_RECORDS_H

#include <stdbool.h>
#include <stdint.h>
#include <sys/types.h>

struct record;
struct session;

/* The form of the records. It grows with each change of what they say, so that no samhost takes up a session whose records it would read
 * otherwise: tests/host/host_checks/journals.py has a sum of the code that decides. */
#define RECORDS_FORM 8

/* How a session began. */
struct start {
    bool is_other; /* another version of the library has written the records, though they are of this form */
    char *folder;  /* the taker's; NULL where memory is out */
    mode_t mode_of_new_files;
    int64_t longest_alone;
};

/* Takes how it began; the session's id follows. Returns whether the records are of this form: else nothing more is known of them. */
bool take_start(struct record *record, struct start *start);

/* Puts a journal of a session that has a new server in the place of the one that is there. Where that can't be it is held, and no session
 * goes on from the older one: a journal that nobody writes would bring an older text back. */
void begin_fresh_journal(struct session *session);

/* Records what is known of a file. */
void record_document(struct session *session, uint16_t tag);

/* Records the copies of texts that are new. */
void record_copies(struct session *session);

/* Takes what a record says of a document. */
void take_document(struct session *session, struct record *record);

#endif
