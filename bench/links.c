/* links.c: a link, and the same bytes without one. */
#include "jobs.h"

#include <stdio.h>
#include <stdlib.h>
#include <string.h>
#include <sys/socket.h>
#include <unistd.h>

enum {
    PIECE = 65536,     /* bytes that a program sends or takes at once */
    ROOM = PIECE + 64, /* and the heads of the packets that they become */
    PLACES = 32        /* more than these packets are */
};

/* Ends the program where the system doesn't do what it was asked. */
static void need(int is_done, const char *what)
{
    if (is_done)
        return;
    perror(what);
    exit(1);
}

/* Sends a piece over a line, and takes it at the other end. */
static void carry_piece(const int line[2], uint8_t *piece, size_t len)
{
    size_t came = 0;
    need(write(line[0], piece, len) == (ssize_t)len, "write");
    while (came < len) {
        ssize_t more = read(line[1], piece + came, len - came);
        need(more > 0, "read");
        came += (size_t)more;
    }
}

static void open_line(int line[2])
{
    int room = 4 * PIECE;
    need(socketpair(AF_UNIX, SOCK_STREAM, 0, line) == 0, "socketpair");
    need(setsockopt(line[0], SOL_SOCKET, SO_SNDBUF, &room, sizeof room) == 0, "SO_SNDBUF");
}

/* Two ends that have said hello. */
static uint64_t join_ends(sam_link *terminal, sam_link *host)
{
    static const uint8_t id[SAM_LINK_ID_BYTES] = "a session's name";
    uint8_t hello[SAM_LINK_HELLO_BYTES];
    uint64_t attempt;
    size_t count;
    WANT(sam_link_new(terminal, SAM_LINK_TERMINAL, id));
    WANT(sam_link_new(host, SAM_LINK_HOST, id));
    WANT(sam_link_call(terminal, false, &attempt));
    WANT(sam_link_take_out(terminal, attempt, hello, sizeof hello, &count));
    WANT(sam_link_answer(host, hello, count));
    WANT(sam_link_take_out(host, attempt, hello, sizeof hello, &count));
    WANT(sam_link_welcomed(terminal, hello, count));
    return attempt;
}

/* What bytes of a program that have come add to its check value. */
static uint64_t check_more(uint64_t check, const uint8_t *bytes, size_t len)
{
    for (size_t at = 0; at < len; at += SAM_LINK_MOST_NOTE)
        check = mix(check, check_bytes(bytes + at, len - at < SAM_LINK_MOST_NOTE ? len - at : SAM_LINK_MOST_NOTE));
    return check;
}

/* Carries what one end has for a connection to the other, which takes in what comes. Returns its check value. */
static uint64_t carry_end(const int line[2], sam_link *from, sam_link *to, uint64_t attempt, uint64_t check)
{
    uint8_t piece[ROOM], bytes[PIECE];
    sam_place places[PLACES];
    size_t count;
    for (;;) {
        WANT(sam_link_take_out(from, attempt, piece, sizeof piece, &count));
        if (count == 0)
            return check;
        carry_piece(line, piece, count);
        WANT(sam_link_feed_places(to, attempt, piece, count, places, PLACES, &count));
        for (size_t i = 0; i < count; i++)
            check = check_more(check, piece + places[i].start, places[i].len);
        WANT(sam_link_take_in(to, bytes, sizeof bytes, &count));
        while (count > 0) {
            check = check_more(check, bytes, count);
            WANT(sam_link_take_in(to, bytes, sizeof bytes, &count));
        }
    }
}

/* Carries `size` bytes over a line, through two ends. */
struct report linked(uint32_t size)
{
    sam_link terminal = SAM_LINK_INIT, host = SAM_LINK_INIT;
    struct bytes text = letters(PIECE);
    struct report found = {0};
    int line[2];
    uint64_t attempt = join_ends(&terminal, &host);
    open_line(line);
    int64_t begin = nanoseconds();
    for (uint32_t i = 0; i < size / PIECE; i++) {
        WANT(sam_link_put(&terminal, text.at, PIECE));
        found.check = carry_end(line, &terminal, &host, attempt, found.check);
        (void)carry_end(line, &host, &terminal, attempt, 0);
    }
    found.took = nanoseconds() - begin;
    return found;
}

/* The same without a link: the bytes go from the program to the line, and from the line to the program. */
struct report unlinked(uint32_t size)
{
    static uint8_t piece[PIECE];
    struct bytes text = letters(PIECE);
    struct report found = {0};
    int line[2];
    open_line(line);
    int64_t begin = nanoseconds();
    for (uint32_t i = 0; i < size / PIECE; i++) {
        memcpy(piece, text.at, PIECE);
        carry_piece(line, piece, PIECE);
        found.check = check_more(found.check, piece, PIECE);
    }
    found.took = nanoseconds() - begin;
    return found;
}
