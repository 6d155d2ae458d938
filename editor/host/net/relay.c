/* relay.c: carries bytes between standard input and output and the socket of a session that stays, and knows nothing of them.
 *
 * It ends where either side does. It waits for either end alone, and writes no more than goes at once where there is room: so no flag of a
 * stream is set, which other programs would see as well.
 */
#define _GNU_SOURCE
#include <errno.h>
#include <poll.h>
#include <signal.h>
#include <stdbool.h>
#include <stdint.h>
#include <unistd.h>

#include "net/relay.h"
#include "limits.h"
#include "session/ending.h"

enum { MOST_AT_ONCE = 4096 }; /* bytes for which a pipe that has room has room (PIPE_BUF) */

/* Bytes on their way, and where they come from and go to. */
struct flow {
    int from, to;
    size_t sent, len;
    bool has_ended; /* no more comes */
    bool is_broken; /* no more goes */
    bool has_come;  /* a byte did */
    uint8_t bytes[PIECE];
};

/* What a flow waits for: room, or bytes; nothing, where it is broken. */
static struct pollfd awaited(const struct flow *flow)
{
    bool has_bytes = flow->sent < flow->len;

    return (struct pollfd){flow->is_broken ? -1 : has_bytes ? flow->to : flow->from, has_bytes ? POLLOUT : POLLIN, 0};
}

/* Does what a flow has waited for. */
static void carry(struct flow *flow)
{
    size_t left = flow->len - flow->sent;
    ssize_t count = left > 0 ? write(flow->to, flow->bytes + flow->sent, left < MOST_AT_ONCE ? left : MOST_AT_ONCE)
                             : read(flow->from, flow->bytes, PIECE);

    if (count < 0 && (errno == EAGAIN || errno == EINTR))
        return;
    if (left > 0) {
        flow->sent += count > 0 ? (size_t)count : 0;
        flow->is_broken = count < 0;
    } else {
        flow->sent = 0;
        flow->len = count > 0 ? (size_t)count : 0;
        flow->has_ended = count <= 0;
        flow->has_come |= count > 0;
    }
}

int relay(int line)
{
    static struct flow up = {.from = STDIN_FILENO}, down = {.to = STDOUT_FILENO};

    signal(SIGPIPE, SIG_IGN);
    up.to = down.from = line;
    while (!up.has_ended && !down.has_ended && !down.is_broken) {
        struct pollfd ends[] = {awaited(&up), awaited(&down)};
        if (poll(ends, 2, -1) < 0)
            continue;
        if (ends[0].revents != 0)
            carry(&up);
        if (ends[1].revents != 0)
            carry(&down);
    }
    close(line);
    return up.has_ended || (down.has_ended && down.has_come) ? STATUS_OK : STATUS_BROKEN;
}
