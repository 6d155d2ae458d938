/* jobs.h: the jobs of the C program, and what they share. bench/README.md says what they are for. plain.rs names the function of plain Rust
 * that does the same as each, but for `linked`, beside which `unlinked` stands. */
#ifndef JOBS_H
#define JOBS_H

#include "sulgrevad.h"

/* What a job found: how many nanoseconds its work had a processor, without what was made ready for it, and a number that depends on what
 * was made. */
struct report {
    int64_t took;
    uint64_t check;
};

struct report find(uint32_t size);
struct report x(uint32_t size);
struct report undo(uint32_t size);
struct report both_ends(uint32_t size);
struct report files(uint32_t size);
struct report waiting(uint32_t size);
struct report scattered(uint32_t size);
struct report linked(uint32_t size);
struct report unlinked(uint32_t size);

/* ---- support.c ---- */

/* Bytes that grow; they are never freed, since a run does one job. */
struct bytes {
    uint8_t *at;
    size_t len, room;
};

/* The kinds of frames that the jobs make, by docs/reference/PROTOCOL.md. */
enum { TVERSION = 1, TSTARTCMDFILE = 2, TSTARTFILE = 6, TTYPE = 8, TCUT = 9, TLOOK = 15, TSEARCH = 16, HVERSION = 65 };

/* WANT(CALL) ends the program where a call is not answered by SAM_OK. */
void want(sam_status status, const char *call);
#define WANT(call) want(call, #call)

/* How long the program had a processor, so that other programs count less. */
int64_t nanoseconds(void);

/* Mixes a number into a check value. */
uint64_t mix(uint64_t check, uint64_t more);

/* The check value of bytes, by eight of them at a time, so that it takes little of a job's time. */
uint64_t check_bytes(const uint8_t *bytes, size_t len);

/* The next state of a generator of pseudo-random numbers. */
uint64_t next_state(uint64_t state);

void add(struct bytes *to, const void *bytes, size_t len);

/* Pseudo-random letters and spaces; one text again and again, up to so many runes, all
 * of them ASCII; the text of a string, until the next call. */
struct bytes letters(size_t count);
struct bytes repeated(const char *text, size_t count);
struct bytes text_of(const char *string);
struct bytes part_of(struct bytes text, size_t start, size_t len);

/* Adds a frame: the form has a letter for each field, h for two bytes, i for four, t for the text at the end. A frame of the host has a
 * stamp that no terminal refuses. */
void put(struct bytes *out, int kind, const char *form, ...);

/* Makes a host with so many files of this text. With `open_host` they are all open, the last of them is the work file, and the command file
 * is open too. */
void new_host(sam_host *host, struct bytes text, int files);
void open_host(sam_host *host, struct bytes text, int files);

void feed_host(sam_host *host, struct bytes frames);
void feed_term(sam_term *term, struct bytes frames);

/* Take all out that is pending, and return its check value. */
uint64_t take_host(sam_host *host);
uint64_t take_term(sam_term *term);

/* Mixes the text of a file into a check value. */
uint64_t check_host(sam_host *host, uint16_t tag, uint64_t check);

#endif
