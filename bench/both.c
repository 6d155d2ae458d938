/* both.c: jobs of a host and a terminal. */
#include "jobs.h"

#include <stdio.h>

/* Carries bytes up and down until none wait. Returns their check value. */
static uint64_t carry(sam_host *host, sam_term *term)
{
    uint8_t piece[4096];
    uint64_t check = 0;
    for (;;) {
        size_t up, down;
        WANT(sam_term_take_out(term, piece, sizeof piece, &up));
        check = mix(check, check_bytes(piece, up));
        WANT(sam_host_feed(host, piece, up));
        WANT(sam_host_take_out(host, piece, sizeof piece, &down));
        check = mix(check, check_bytes(piece, down));
        WANT(sam_term_feed(term, piece, down));
        if (up == 0 && down == 0)
            return check;
    }
}

/* Opens the files, and shows the front of each. */
static void open_files(sam_host *host, sam_term *term, int files)
{
    WANT(sam_term_new(term));
    WANT(sam_term_offer_version(term, 2));
    WANT(sam_term_open_cmd(term));
    carry(host, term);
    for (int tag = 1; tag <= files; tag++) {
        WANT(sam_term_open(term, (uint16_t)tag));
        WANT(sam_term_view(term, (uint16_t)tag, 0, 512));
        carry(host, term);
    }
}

/* Types ten runes at a place of a file, and has a command put one in the place of these and the next. */
static void play(sam_term *term, uint16_t tag, uint32_t place)
{
    enum { STRETCH = 10 };
    char line[64];
    int len = snprintf(line, sizeof line, "#%u,#%uc/y/\n", (unsigned)place, (unsigned)place + STRETCH + 1);
    WANT(sam_term_select(term, tag, place, place));
    for (int i = 0; i < STRETCH; i++)
        WANT(sam_term_type(term, tag, (const uint8_t *)"x", 1));
    WANT(sam_term_work(term, tag));
    WANT(sam_term_type(term, 0, (const uint8_t *)line, (size_t)len));
}

/* Types `size` runes in four files, and carries the bytes after each ten and their command. */
struct report both_ends(uint32_t size)
{
    enum { FILES = 4, LENGTH = 5000, STRETCH = 10 };
    sam_host host = SAM_HOST_INIT;
    sam_term term = SAM_TERM_INIT;
    struct report found = {0};
    int64_t begin;
    new_host(&host, letters(LENGTH), FILES);
    open_files(&host, &term, FILES);
    begin = nanoseconds();
    for (uint32_t turn = 0; turn < size / STRETCH; turn++) {
        play(&term, (uint16_t)(turn % FILES + 1), turn * 37 % (LENGTH - 100));
        found.check = mix(found.check, carry(&host, &term));
    }
    found.took = nanoseconds() - begin;
    for (uint16_t tag = 1; tag <= FILES; tag++)
        found.check = check_host(&host, tag, found.check);
    return found;
}

/* Opens half of so many files, which the host has, makes the other half, and closes all. The bytes are carried after each. */
struct report files(uint32_t size)
{
    enum { LENGTH = 10 };
    sam_host host = SAM_HOST_INIT;
    sam_term term = SAM_TERM_INIT;
    struct report found = {0};
    int64_t begin;
    new_host(&host, letters(LENGTH), (int)size / 2);
    WANT(sam_term_new(&term));
    WANT(sam_term_offer_version(&term, 2));
    carry(&host, &term);
    begin = nanoseconds();
    for (uint32_t tag = 1; tag <= size; tag++) {
        if (tag <= size / 2)
            WANT(sam_term_open(&term, (uint16_t)tag));
        else
            WANT(sam_term_new_file(&term));
        found.check = mix(found.check, carry(&host, &term));
    }
    for (uint32_t tag = 1; tag <= size; tag++) {
        WANT(sam_term_close(&term, (uint16_t)tag));
        found.check = mix(found.check, carry(&host, &term));
    }
    found.took = nanoseconds() - begin;
    return found;
}
