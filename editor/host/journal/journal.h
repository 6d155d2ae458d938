/* journal.h: what a session that stays has done, in a file that only grows, so that another samhost can be the very same one. */
#ifndef SAMHOST_JOURNAL_JOURNAL_H
#define SAMHOST_JOURNAL_JOURNAL_H

#include <stdbool.h>
#include <stddef.h>
#include <stdint.h>

#include "journal/record_body.h"
#include "sulgrevad.h"

struct home;
struct session;
struct text;

/* The place of a record in a journal, its number, and how much was on the disk when the one before it was made. */
struct record_place {
    size_t at;
    uint64_t number, durable;
};

struct journal {
    int file;                                 /* -1 where there is none */
    enum { NEW, IN_PLACE, UNFINISHED } state; /* which name it has */
    uint64_t random;                          /* of the file */
    struct record_place end;                  /* where the next record is added; how much is on the disk now */
    struct body turn;                         /* the entries of the next record */
    size_t in_turn;                           /* how many records of the server are among them */
    struct body held;                         /* what the disk may lack: all behind what is durable */
    size_t written;                           /* how much of that the file has */
    bool is_missed;                           /* its folder is not whole, as somebody removes it */
    bool is_held;                             /* the file can't be written, so that waits there */
    int64_t due, pause;                       /* when that is tried again, and in how many milliseconds once more if it can't be */
    int lost;                                 /* why it can't be written, which is still to be told; else 0 */
};

/* Makes a new journal in the folder of a session, beside the one that is there. Where that can't be it is held. */
void make_journal(struct session *session);

/* Gives the journal, which is on the disk, its name, in the place of one that is there, and has that be on the disk. */
int place_journal(struct session *session);

/* The file can't be written any more, so it gets another name: no session goes on from one that lacks a step. It keeps its name where the
 * session is kept. Records are held from now on. */
void hold_journal(struct session *session, int error);

/* In how many milliseconds mend_journal is to be called; -1 where it isn't. */
int64_t mending_is_due_in(const struct session *session);

/* Tells of a journal that can't be written, or is not found any more. Where it is time, tries again. */
void mend_journal(struct session *session);

/* Writes what a journal lacks that is held, and makes again what its folder lacks. Returns whether there is one then. */
bool complete_journal(struct session *session);

/* Closes its files, and forgets what is held. */
void close_journal(struct journal *journal);

/* Whether the folder of a session has a journal; and whether it has one from which another samhost can go on. Where that can't be seen it
 * counts as there: who opens it finds why, and nobody writes another in its place. */
bool has_journal(const struct home *home);
bool has_whole_journal(const struct home *home);

/* Has all that an open journal has be readable, until close_records. Of one that lacks its head that is nothing. */
int map_records(int file, struct text *all);
void close_records(struct text *all);

/* Opens the journal that is there, and hands out the same of it, what the library says of its head, and whether it could not be written to
 * its end. */
int open_journal(struct session *session, struct text *all, sam_status *head, bool *is_unfinished);

/* While a terminal is there: has the time of the journal say so, by which a session whose samhost is gone counts as alone since then. */
void renew_time(const struct session *session);

/* Whether such a session has been alone for longer than it may be, as its journal says. */
bool is_left_alone(const struct home *home);

/* Cuts the journal to its whole records, and has the cut be on the disk. */
int cut_journal(struct session *session, size_t len);

/* Whether records are written; and whether they are, or are held. */
bool writes_records(const struct journal *journal);
bool takes_records(const struct journal *journal);

/* Puts an entry into the next record, and frees its body. */
void add_entry(struct session *session, enum entry kind, struct body *body);

/* Puts an entry that has a number as its body. */
void add_number_entry(struct session *session, enum entry kind, uint64_t number);

/* Takes the memory of the next such entry beforehand. Returns whether there is some; or true where no records are taken. */
bool has_room_for_number(struct journal *journal);

enum { MOST_IN_TURN = 1 << 20 }; /* bytes of entries behind which a record ends */

/* Has all that the server took, and what is known beside it since, be in the journal, and on the disk; and the server hear so. A kill
 * leaves all of it or nothing, unless it is more than MOST_IN_TURN. What is done for the server waits until that it is done is a record,
 * too. */
void settle(struct session *session);

/* Whether it is so: no memory was out. */
bool is_settled(struct session *session);

/* The next record loses its entries: they are of a server that is none any more. */
void drop_turn(struct journal *journal);

/* Has all that was written be on the disk. */
void sync_journal(struct session *session);

/* The place of the first record; and the record of a place in the file of this random number, of which the place goes on to the next one.
 * False at the end, or where the rest is torn or damaged. */
struct record_place first_record(void);
bool next_record(const struct text *all, uint64_t random, struct record_place *place, struct record *record);

/* Whether a journal whose whole records end there is damaged, as a record behind them says. Where much stands there it counts as if one
 * did. */
bool is_journal_damaged(const struct text *all, size_t end);

#endif
