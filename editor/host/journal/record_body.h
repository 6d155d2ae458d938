/* record_body.h: the bodies of a journal's records. Numbers have the highest byte first. */
#ifndef SAMHOST_JOURNAL_RECORD_BODY_H
#define SAMHOST_JOURNAL_RECORD_BODY_H

#include <stdbool.h>
#include <stddef.h>
#include <stdint.h>

/* What a record of a journal is of. The first one is of the session, and each other one of what a turn made: entries, of which each has a
 * kind, a length, and a body. */
enum entry {
    ENTRY_START = 1,   /* the session: its folder, what the words said, and the id of its server. It stands alone, without a length */
    ENTRY_SERVER = 32, /* a record of the server */
    ENTRY_BEGUN,       /* all of the first ones stand before this */
    ENTRY_KNOWN,       /* what is known of a file, or of what was cut last */
    ENTRY_ENDED        /* the last message is said; the exit status */
};

enum { ENTRY_HEAD = 9 }; /* bytes before the body of an entry: its kind, and the length in eight */

/* The body of a record that is made. */
struct body {
    uint8_t *bytes;
    size_t len, room;
    bool is_short; /* memory was out */
};

/* A record or an entry that is read, of which the body goes as it is taken. */
struct record {
    const uint8_t *body;
    size_t len;
    bool is_wrong, is_short; /* it has less than was taken; memory was out */
};

/* Makes room in a body for so many bytes more; where there is no memory it is short. */
bool has_room(struct body *body, size_t more);

/* What a body has, in order. Words may be NULL; they are taken into memory of the caller's, with a zero behind them. */
void add_number(struct body *body, uint64_t number);
void add_raw(struct body *body, const void *bytes, size_t len);
void add_words(struct body *body, const void *words, size_t len);
void add_entry_head(struct body *body, enum entry kind, size_t len);
uint64_t take_number(struct record *record);
uint8_t take_byte(struct record *record);
const uint8_t *take_data(struct record *record, size_t *len);
char *take_words(struct record *record, size_t *len);

#endif
