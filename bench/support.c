/* support.c: what the jobs share. */
#include "jobs.h"

#include <stdarg.h>
#include <stdio.h>
#include <stdlib.h>
#include <string.h>
#include <time.h>

/* How many bytes are taken out at once. */
enum { ROOM = 65536 };

void want(sam_status status, const char *call)
{
    if (status == SAM_OK)
        return;
    fprintf(stderr, "%s: %s\n", call, sam_status_text(status));
    exit(1);
}

int64_t nanoseconds(void)
{
    struct timespec now;
    clock_gettime(CLOCK_PROCESS_CPUTIME_ID, &now);
    return now.tv_sec * INT64_C(1000000000) + now.tv_nsec;
}

uint64_t mix(uint64_t check, uint64_t more)
{
    return check * 31 + more;
}

uint64_t check_bytes(const uint8_t *bytes, size_t len)
{
    uint64_t check = len, word;
    size_t at = 0;
    for (; len - at >= sizeof word; at += sizeof word) {
        memcpy(&word, bytes + at, sizeof word);
        check = mix(check, word);
    }
    for (; at < len; at++)
        check = mix(check, bytes[at]);
    return check;
}

uint64_t next_state(uint64_t state)
{
    return state * UINT64_C(6364136223846793005) + UINT64_C(1442695040888963407);
}

void add(struct bytes *to, const void *bytes, size_t len)
{
    if (to->room - to->len < len) {
        to->room = 2 * to->room + len;
        to->at = realloc(to->at, to->room);
        if (!to->at) {
            fputs("out of memory\n", stderr);
            exit(1);
        }
    }
    if (len > 0)
        memcpy(to->at + to->len, bytes, len);
    to->len += len;
}

/* So many pseudo-random runes; each eighth of them is one of these texts, if there are any. */
static struct bytes random_runes(size_t count, const char *const *others)
{
    struct bytes text = {0};
    uint64_t state = 1;
    for (size_t i = 0; i < count; i++) {
        state = next_state(state);
        if (others && i % 8 == 7)
            add(&text, others[i / 8 % 3], strlen(others[i / 8 % 3]));
        else
            add(&text, &"abcdefghijklmnopqrstuvwxyz "[(state >> 33) % 27], 1);
    }
    return text;
}

struct bytes letters(size_t count)
{
    return random_runes(count, NULL);
}

struct bytes repeated(const char *text, size_t count)
{
    struct bytes whole = {0};
    size_t len = strlen(text);
    while (whole.len < count)
        add(&whole, text, len < count - whole.len ? len : count - whole.len);
    return whole;
}

struct bytes text_of(const char *string)
{
    static struct bytes text;
    text.len = 0;
    add(&text, string, strlen(string));
    return text;
}

struct bytes part_of(struct bytes text, size_t start, size_t len)
{
    struct bytes part = {text.at + start, len, len};
    return part;
}

/* Adds a number of so many bytes, the highest first. */
static void add_number(struct bytes *out, unsigned number, int bytes)
{
    while (bytes-- > 0) {
        uint8_t byte = (uint8_t)(number >> 8 * bytes);
        add(out, &byte, 1);
    }
}

void put(struct bytes *out, int kind, const char *form, ...)
{
    va_list fields;
    size_t start = out->len, length;
    add_number(out, (unsigned)kind, 1);
    add_number(out, 0, 2);
    if (kind >= HVERSION) {
        add_number(out, 0, 4);
        add_number(out, 0, 4);
    }
    va_start(fields, form);
    for (; *form; form++) {
        if (*form == 't') {
            struct bytes text = va_arg(fields, struct bytes);
            add(out, text.at, text.len);
        } else {
            add_number(out, va_arg(fields, unsigned), *form == 'h' ? 2 : 4);
        }
    }
    va_end(fields);
    length = out->len - start - 3;
    out->at[start + 1] = (uint8_t)(length >> 8);
    out->at[start + 2] = (uint8_t)length;
}

void new_host(sam_host *host, struct bytes text, int files)
{
    uint16_t tag;
    WANT(sam_host_new(host));
    for (int i = 0; i < files; i++)
        WANT(sam_host_add_file(host, (const uint8_t *)"f", 1, text.at, text.len, &tag));
}

void open_host(sam_host *host, struct bytes text, int files)
{
    struct bytes opening = {0};
    new_host(host, text, files);
    put(&opening, TVERSION, "h", 2);
    put(&opening, TSTARTCMDFILE, "");
    for (int tag = 1; tag <= files; tag++)
        put(&opening, TSTARTFILE, "h", tag);
    feed_host(host, opening);
    take_host(host);
}

void feed_host(sam_host *host, struct bytes frames)
{
    WANT(sam_host_feed(host, frames.at, frames.len));
}

void feed_term(sam_term *term, struct bytes frames)
{
    WANT(sam_term_feed(term, frames.at, frames.len));
}

uint64_t take_host(sam_host *host)
{
    static uint8_t piece[ROOM];
    uint64_t check = 0;
    for (;;) {
        size_t count;
        WANT(sam_host_take_out(host, piece, ROOM, &count));
        if (count == 0)
            return check;
        check = mix(check, check_bytes(piece, count));
    }
}

uint64_t take_term(sam_term *term)
{
    static uint8_t piece[ROOM];
    uint64_t check = 0;
    for (;;) {
        size_t count;
        WANT(sam_term_take_out(term, piece, ROOM, &count));
        if (count == 0)
            return check;
        check = mix(check, check_bytes(piece, count));
    }
}

uint64_t check_host(sam_host *host, uint16_t tag, uint64_t check)
{
    static uint8_t piece[ROOM];
    uint64_t of_text = 0;
    uint32_t place = 0, runes;
    for (;;) {
        size_t count;
        WANT(sam_host_text(host, tag, place, piece, ROOM, &count, &runes));
        if (count == 0)
            return mix(check, of_text);
        for (size_t i = 0; i < count; i++)
            of_text = mix(of_text, piece[i]);
        place += runes;
    }
}
