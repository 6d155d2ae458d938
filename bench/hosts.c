/* hosts.c: jobs of a host alone. */
#include "jobs.h"

#include <stdio.h>

enum { PIECE = 4096 };

/* Looks 100 times for three runes that stand at the end of a text; the first of them is one of its letters. */
struct report find(uint32_t size)
{
    sam_host host = SAM_HOST_INIT;
    struct bytes text = letters(size - 3), look = {0}, search = {0};
    struct report found = {0};
    int64_t begin;
    add(&text, "ab!", 3);
    open_host(&host, text, 1);
    put(&look, TLOOK, "hii", 1, size - 3, size);
    put(&search, TSEARCH, "hii", 1, 0, 0);
    feed_host(&host, look);
    begin = nanoseconds();
    for (int i = 0; i < 100; i++) {
        uint32_t start, end;
        feed_host(&host, search);
        WANT(sam_host_dot(&host, 1, &start, &end));
        found.check += (uint64_t)start + end;
    }
    found.took = nanoseconds() - begin;
    return found;
}

/* Runs a line on this text, and tells the terminal of its edits. */
static struct report run_line(struct bytes text, const char *line)
{
    sam_host host = SAM_HOST_INIT;
    struct bytes typed = {0};
    struct report found;
    int64_t begin;
    open_host(&host, text, 1);
    put(&typed, TTYPE, "hit", 0, 0, text_of(line));
    begin = nanoseconds();
    feed_host(&host, typed);
    found.check = take_host(&host);
    found.took = nanoseconds() - begin;
    found.check = check_host(&host, 1, found.check);
    return found;
}

/* Edits of one rune, each of which gives way to another. */
struct report x(uint32_t size)
{
    return run_line(repeated("a", size), ",x/a/c/b/\n");
}

/* Feeds a stream piece by piece, and takes the answers out. Returns their check value. */
static uint64_t feed_pieces(sam_host *host, struct bytes stream, size_t piece)
{
    uint64_t check = 0;
    for (size_t at = 0; at < stream.len; at += piece) {
        feed_host(host, part_of(stream, at, piece < stream.len - at ? piece : stream.len - at));
        check = mix(check, take_host(host));
    }
    return check;
}

/* Has a host take back a replace-all at `size` places of a long text, the last in the text first, each with a cut and with what is typed
 * there. */
struct report undo(uint32_t size)
{
    enum { STRETCH = 16, REPLACED = 5, PIECE_OF_STREAM = 65536 };
    sam_host host = SAM_HOST_INIT;
    struct bytes before = letters((size_t)size * STRETCH), after = {0}, stream = {0};
    struct report found;
    uint64_t taken;
    int64_t begin;
    for (size_t i = 0; i < before.len; i++)
        add(&after, i % STRETCH < REPLACED ? (const uint8_t *)"x" : before.at + i, 1);
    for (uint32_t i = size; i-- > 0;) {
        put(&stream, TCUT, "hii", 1, i * STRETCH, i * STRETCH + REPLACED);
        put(&stream, TTYPE, "hit", 1, i * STRETCH, part_of(before, (size_t)i * STRETCH, REPLACED));
    }
    open_host(&host, after, 1);
    begin = nanoseconds();
    feed_pieces(&host, stream, PIECE_OF_STREAM);
    found.took = nanoseconds() - begin;
    WANT(sam_host_taken(&host, &taken));
    found.check = check_host(&host, 1, taken);
    return found;
}
