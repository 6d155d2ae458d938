/*
 * cases.h: what refusing_host.c and refusing_term.c share. In each of their cases memory may be refused at any request (tried.h). It makes
 * its own start, and calls; what the call does is worked out there, and not by the library. The program prints the case and `right`,
 * whichever request was refused. Without a name it prints those of all cases.
 */
#ifndef CASES_H
#define CASES_H

#include "tried.h"

/* ---- Hosts and terminals to start with ---- */

static void make_host(const uint8_t *text, size_t len)
{
    uint16_t tag = 0;
    size_t pending = 0;
    sam_status status;
    while ((status = sam_host_new(&host)) == SAM_NO_MEMORY)
        if (sam_host_pending(&host, &pending) != SAM_NO_HANDLE)
            fail("a host that is not made", status);
    want("a host", status);
    read_state(HOST, &before);
    while ((status = sam_host_add_file(&host, (const uint8_t *)"a", 1, text, len, &tag)) == SAM_NO_MEMORY)
        want_as_before(HOST, "a file that is not added");
    want("a file", status);
    want_number("its tag", tag, 1);
}

static inline void make_term(void)
{
    size_t pending = 0;
    sam_status status;
    while ((status = sam_term_new(&term)) == SAM_NO_MEMORY)
        if (sam_term_pending(&term, &pending) != SAM_NO_HANDLE)
            fail("a terminal that is not made", status);
    want("a terminal", status);
}

/* A text of so many `letter`s. */
static const uint8_t *letters(char letter, size_t count)
{
    static uint8_t text[1000001];
    memset(text, letter, count);
    text[count] = 0;
    return text;
}

/* ---- Frames to start with ---- */

/* The frame of `hi`, typed at the start of file 1; the one that gives `ab` as that start, after two messages. */
static const struct piece typed = {{8, 0, 8, 0, 1, 0, 0, 0, 0, 0x68, 0x69}, 11, 1};
static const struct piece given = {{0x49, 0, 0x10, 0, 0, 0, 0, 0, 0, 0, 2, 0, 1, 0, 0, 0, 0, 0x61, 0x62}, 19, 1};

/* A kind, and a body of these bytes and so many `a`s. */
static struct piece body_of(uint8_t kind, const char *bytes, size_t len, size_t more)
{
    struct piece piece = {0};
    size_t body = begin_frame(&piece, kind);
    for (size_t i = 0; i < len + more; i++)
        add_number(&piece, i < len ? (uint8_t)bytes[i] : 'a', 1);
    end_frame(&piece, body);
    return piece;
}

struct bad {
    uint8_t kind;
    const char *bytes;
    size_t len, more;
    sam_status why;
};

/* ---- Cases ---- */

struct tried_case {
    const char *name;
    void (*run)(void);
};

/* Runs the case that the first word names, or prints the names of all. Returns the status of the program: 2 if no case has this name. */
static int run_cases(const struct tried_case *cases, size_t count, int argc, char **argv)
{
    bool is_there = argc < 2;
    for (size_t i = 0; i < count; i++) {
        if (argc > 1 && strcmp(argv[1], cases[i].name) != 0)
            continue;
        if (argc > 1)
            cases[i].run();
        printf("%s%s\n", cases[i].name, argc > 1 ? ": right" : "");
        is_there = true;
    }
    sam_host_free(&host);
    sam_term_free(&term);
    return is_there ? 0 : 2;
}

#endif
