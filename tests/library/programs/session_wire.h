/*
 * session_wire.h: the connection between a client and a durable server. What it has on its way is lost where it breaks, in the middle of
 * any piece; and it may fall silent, so that the client has to find out by its clock.
 */
#ifndef SESSION_WIRE_H
#define SESSION_WIRE_H

#include "session_front.h"

enum { PIPE = 1 << 14, MOST_PIECE = 4000 };

/* Bytes on their way. */
struct pipe {
    uint8_t bytes[PIPE];
    size_t len;
};
static struct {
    uint64_t attempt; /* 0: there is no connection */
    struct pipe up, down;
    uint8_t hello[SAM_LINK_HELLO_BYTES], older[SAM_LINK_HELLO_BYTES]; /* this terminal's, and that of a connection before */
    size_t hello_len;
    bool has_older, is_silent;
} wire;
static struct meeting connections = {"connections", 0}, drops = {"connections that were given up", 0}, lost_up = {"pieces lost up", 0},
                      lost_down = {"pieces lost down", 0}, late = {"connections that come late", 0};

/* ---- Connections ---- */

static void clear_wire(uint64_t attempt)
{
    if (wire.hello_len == sizeof wire.hello) {
        memcpy(wire.older, wire.hello, sizeof wire.older);
        wire.has_older = true;
    }
    lost_up.count += wire.up.len > 0;
    lost_down.count += wire.down.len > 0;
    wire.attempt = attempt;
    wire.up.len = wire.down.len = wire.hello_len = 0;
    wire.is_silent = false;
}

/* The connection ends for both; but a server may not hear of that. */
static void cut_wire(void)
{
    if (wire.attempt != 0) {
        WANT(sam_client_broken(&front->client, wire.attempt, front->now), SAM_OK);
        if (pick(2))
            WANT(sam_server_broken(&host->server, wire.attempt), SAM_OK);
    }
    clear_wire(0);
}

/* A connection is made as a client wants it, mostly. */
static void connect_wire(void)
{
    uint64_t attempt = 0;
    if (one_in(5)) {
        WANT(sam_client_not_connected(&front->client, front->now), SAM_OK);
        return;
    }
    WANT(sam_client_connected(&front->client, front->now, &attempt), SAM_OK);
    clear_wire(attempt);
    connections.count++;
}

/* So many milliseconds pass, and what is to be done then is done. */
static void pass_time(uint64_t milliseconds)
{
    front->now += milliseconds;
    for (uint32_t tick = SAM_TICK_ASK; tick != SAM_TICK_NOTHING;) {
        WANT(sam_client_tick(&front->client, front->now, &tick), SAM_OK);
        if (tick == SAM_TICK_CONNECT)
            connect_wire();
        if (tick == SAM_TICK_DROP) {
            cut_wire();
            drops.count++;
        }
    }
}

/* ---- Bytes ---- */

static void drop_front(struct pipe *pipe, size_t count)
{
    pipe->len -= count;
    memmove(pipe->bytes, pipe->bytes + count, pipe->len);
}

/* How many of the first bytes come, of at most so many. */
static size_t pick_piece(const struct pipe *pipe, size_t most)
{
    size_t room = pipe->len < most ? pipe->len : most;
    return room == 0 || pick(2) ? room : 1 + pick((uint32_t)room);
}

/* The client's bytes go, and some come to the server: first its hello. */
static void move_up(size_t most)
{
    struct pipe *up = &wire.up;
    size_t count = 0, room = PIPE - up->len < MOST_PIECE ? PIPE - up->len : MOST_PIECE;
    WANT(sam_client_take_out(&front->client, wire.attempt, up->bytes + up->len, room, &count), SAM_OK);
    up->len += count;
    if (wire.is_silent) {
        up->len = 0;
        return;
    }
    size_t piece = pick_piece(up, most), missing = sizeof wire.hello - wire.hello_len;
    if (piece == 0)
        return;
    if (missing > 0) {
        piece = piece < missing ? piece : missing;
        memcpy(wire.hello + wire.hello_len, up->bytes, piece);
        wire.hello_len += piece;
        if (wire.hello_len == sizeof wire.hello)
            TAKES(sam_server_accept(&host->server, wire.hello, sizeof wire.hello));
    } else {
        TAKES(sam_server_receive(&host->server, wire.attempt, up->bytes, piece));
    }
    drop_front(up, piece);
}

static void client_receives(const uint8_t *bytes, size_t count)
{
    DONE(sam_client_receive(&front->client, wire.attempt, bytes, count, front->now));
    if (planted == BYTES_TWICE && one_in(20))
        DONE(sam_client_receive(&front->client, wire.attempt, bytes, count, front->now));
}

/* The server's bytes go, as far as durable records decide them, and some come to the client. */
static void move_down(size_t most)
{
    struct pipe *down = &wire.down;
    size_t count = 0, room = PIPE - down->len < MOST_PIECE ? PIPE - down->len : MOST_PIECE;
    if (wire.hello_len == sizeof wire.hello)
        WANT(sam_server_take_out(&host->server, wire.attempt, down->bytes + down->len, room, &count), SAM_OK);
    down->len += count;
    size_t piece = wire.is_silent ? 0 : pick_piece(down, most);
    if (planted == BYTES_DROPPED && piece > 1 && one_in(20))
        drop_front(down, 1), piece--;
    if (piece > 0) {
        client_receives(down->bytes, piece);
        drop_front(down, piece);
    }
    go_on();
}

/* A connection from before the newest one reaches the server late: it is refused, and nothing changes. */
static void come_late(void)
{
    uint64_t attempt = 0;
    WANT(sam_server_attempt(&host->server, &attempt), SAM_OK);
    if (!wire.has_older || wire.attempt == 0 || attempt != wire.attempt)
        return;
    TAKES_WITH(sam_server_accept(&host->server, wire.older, sizeof wire.older), SAM_LINK_OLD_ATTEMPT);
    TAKES_WITH(sam_server_receive(&host->server, attempt - 1, wire.older, 1), SAM_LINK_NOT_OPEN);
    late.count++;
}

#endif
