/*
 * breaks SEED STEPS: a random session of two ends of a link over connections that break, are replaced, or go on half-open. What comes out
 * at each side is what was put at the other, each byte and note once and in order. A call that finds no memory is made again, and has
 * changed nothing that the readers say. It prints what it met, the same whether memory is refused or not.
 */
#include "carried.h"

#include <string.h>

enum { SIDES = 2, MOST_PUT = 9000, FLIGHT = 4000000, LINES = 2, ROOM = 5000, PLACES = 4, ROUNDS = 12 };

/* A connection: what each side wrote and the other didn't read yet; whether what it writes is lost, whether it has the other's hello, and
 * whether it has given the connection up. */
struct line {
    uint64_t attempt;
    uint8_t flight[SIDES][FLIGHT];
    size_t len[SIDES];
    bool is_cut[SIDES], is_met[SIDES], is_over[SIDES];
};

struct state {
    uint32_t phase;
    uint64_t attempt, put_count, acknowledged, received;
};

static sam_link ends[SIDES];
static struct log put[SIDES], came[SIDES];
static struct line lines[LINES]; /* the newest is that of number `newest` */
static unsigned newest, calls, breaks, refused;
static size_t placed;

static struct state state_of(sam_link *link)
{
    struct state state;
    memset(&state, 0, sizeof state);
    MUST(sam_link_phase(link, &state.phase));
    MUST(sam_link_attempt(link, &state.attempt));
    MUST(sam_link_put_count(link, &state.put_count));
    MUST(sam_link_acknowledged(link, &state.acknowledged));
    MUST(sam_link_received(link, &state.received));
    return state;
}

static void want_same(struct state is, struct state should)
{
    if (memcmp(&is, &should, sizeof is) != 0)
        fail("changed after SAM_NO_MEMORY, attempt", (unsigned long)is.attempt);
}

/* Makes a call again where memory is out. */
#define TRIED(status, link, call)                                                                                                          \
    do {                                                                                                                                   \
        struct state before = state_of(link);                                                                                              \
        while (((status) = (call)) == SAM_NO_MEMORY)                                                                                       \
            want_same(state_of(link), before);                                                                                             \
    } while (0)

static void puts_some(unsigned side)
{
    static const size_t sizes[] = {0, 1, 3, 50, 4095, 4096, 4097, MOST_PUT};
    static uint8_t bytes[MOST_PUT];
    sam_status status;
    size_t len = sizes[pick(8)];
    for (size_t i = 0; i < len; i++)
        bytes[i] = (uint8_t)pick(256);
    if (pick(2) == 0 && len <= SAM_LINK_MOST_NOTE) {
        TRIED(status, &ends[side], sam_link_put_note(&ends[side], bytes, len));
        log_note(&put[side], bytes, len);
    } else {
        TRIED(status, &ends[side], sam_link_put(&ends[side], bytes, len));
        log_data(&put[side], bytes, len);
    }
    must(status, "put");
}

static void asks(unsigned side)
{
    sam_status status;
    if (pick(2) == 0)
        TRIED(status, &ends[side], sam_link_ask(&ends[side]));
    else
        TRIED(status, &ends[side], sam_link_acknowledge(&ends[side]));
    must(status, "ask");
}

/* The terminal makes another connection: the one before may still bring bytes. */
static struct line *call(void)
{
    newest = (newest + 1) % LINES;
    struct line *line = &lines[newest];
    memset(line, 0, sizeof *line);
    MUST(sam_link_call(&ends[SAM_LINK_TERMINAL], false, &line->attempt));
    calls++;
    return line;
}

static void writes(struct line *line, unsigned side, size_t most)
{
    static uint8_t bytes[FLIGHT];
    size_t count = 0;
    sam_status status = sam_link_take_out(&ends[side], line->attempt, bytes, most, &count);
    if (status != SAM_OK && status != SAM_LINK_NOT_OPEN)
        fail("take_out", status);
    if (line->is_cut[side])
        return;
    if (line->len[side] + count > FLIGHT)
        fail("too much is in flight", (unsigned long)count);
    memcpy(line->flight[side] + line->len[side], bytes, count);
    line->len[side] += count;
}

/* Feeds a piece and takes in at once, into so much room. A call that is refused has moved nothing. */
static sam_status feed_into(const struct line *line, unsigned side, const uint8_t *from, size_t len, size_t room)
{
    static uint8_t bytes[ROOM], unused[ROOM];
    size_t count = ROOM + 1;
    memset(bytes, 0x55, sizeof bytes);
    memset(unused, 0x55, sizeof unused);
    sam_status status = sam_link_feed_into(&ends[side], line->attempt, from, len, bytes, room, &count);
    size_t moved = status == SAM_OK ? count : 0;
    if (moved > room || (status != SAM_OK && count != ROOM + 1))
        fail("feed_into counts", (unsigned long)count);
    if (memcmp(bytes + moved, unused, ROOM - moved) != 0)
        fail("feed_into writes behind what it moved", (unsigned long)moved);
    log_data(&came[!side], bytes, moved);
    return status;
}

/* Feeds a piece and takes its bytes where they lie, at so many places at most. A call that is refused has written none. */
static sam_status feed_places(const struct line *line, unsigned side, const uint8_t *from, size_t len, size_t most)
{
    sam_place places[PLACES], unused[PLACES];
    size_t count = PLACES + 1;
    memset(places, 0x55, sizeof places);
    memset(unused, 0x55, sizeof unused);
    sam_status status = sam_link_feed_places(&ends[side], line->attempt, from, len, places, most, &count);
    size_t wrote = status == SAM_OK ? count : 0;
    if (wrote > most || (status != SAM_OK && count != PLACES + 1))
        fail("feed_places counts", (unsigned long)count);
    if (memcmp(places + wrote, unused, (PLACES - wrote) * sizeof *places) != 0)
        fail("feed_places writes behind its places", (unsigned long)wrote);
    for (size_t i = 0; i < wrote; i++) {
        if (places[i].len == 0 || places[i].start > len || places[i].len > len - places[i].start)
            fail("a place is not in the piece", (unsigned long)i);
        log_data(&came[!side], from + places[i].start, places[i].len);
    }
    placed += wrote;
    return status;
}

static void reads(struct line *line, unsigned side, size_t most)
{
    uint8_t *from = line->flight[!side];
    size_t len = line->len[!side] < most ? line->len[!side] : most;
    sam_status status;
    size_t room = pick(ROOM + 1);
    if (line->is_over[side] || (!line->is_met[side] && line->len[!side] < SAM_LINK_HELLO_BYTES))
        return;
    unsigned way = line->is_met[side] ? pick(3) : 0;
    if (line->is_met[side] && way == 0) {
        TRIED(status, &ends[side], feed_into(line, side, from, len, room));
    } else if (line->is_met[side] && way == 1) {
        TRIED(status, &ends[side], feed_places(line, side, from, len, room % (PLACES + 1)));
    } else if (line->is_met[side]) {
        TRIED(status, &ends[side], sam_link_feed(&ends[side], line->attempt, from, len));
    } else {
        len = SAM_LINK_HELLO_BYTES;
        line->is_met[side] = true;
        status = (side == SAM_LINK_HOST ? sam_link_answer : sam_link_welcomed)(&ends[side], from, len);
    }
    if (status != SAM_OK) {
        if (line == &lines[newest] || (status != SAM_LINK_NOT_OPEN && status != SAM_LINK_OLD_ATTEMPT))
            fail("an honest connection is refused", status);
        line->is_over[side] = true;
        refused++;
    }
    line->len[!side] -= len;
    memmove(from, from + len, line->len[!side]);
}

static void breaks_off(struct line *line, unsigned side)
{
    line->is_cut[side] = true;
    line->len[side] = line->len[side] > 0 ? pick((uint32_t)line->len[side] + 1) : 0;
    breaks++;
    if (pick(2) == 0) {
        unsigned hears = pick(SIDES);
        MUST(sam_link_broken(&ends[hears], line->attempt));
        line->is_over[hears] = true;
    }
}

/* Takes in what there is, by a buffer of some size. */
static void drains(unsigned side, size_t room)
{
    static uint8_t bytes[ROOM];
    size_t count;
    for (;;) {
        MUST(sam_link_take_in(&ends[side], bytes, room, &count));
        if (count > 0) {
            log_data(&came[!side], bytes, count);
            continue;
        }
        sam_status status = sam_link_next_note(&ends[side], bytes, ROOM, &count);
        if (status == SAM_NONE)
            return;
        must(status, "next_note");
        log_note(&came[!side], bytes, count);
    }
}

static void step(void)
{
    static const size_t sizes[] = {1, 2, 41, 42, 43, 500, 5000, FLIGHT};
    unsigned side = pick(SIDES), what = pick(100);
    size_t some = sizes[pick(8)];
    struct line *line = &lines[pick(8) == 0 ? (newest + 1) % LINES : newest];
    if (what < 20)
        puts_some(side);
    else if (what < 24)
        asks(side);
    else if (what < 29)
        call();
    else if (what < 33)
        breaks_off(line, side);
    else if (what < 62)
        writes(line, side, some);
    else if (what < 92)
        reads(line, side, some);
    else
        drains(side, 1 + pick(ROOM));
}

/* Over a connection that holds all comes, also what is put while nothing waits. */
static void ends_well(void)
{
    struct line *line = call();
    for (int round = 0; round < ROUNDS; round++) {
        for (unsigned side = 0; side < SIDES; side++) {
            if (round < ROUNDS / 2)
                puts_some(side);
            writes(line, side, FLIGHT);
            reads(line, !side, FLIGHT);
            reads(line, !side, FLIGHT);
            drains(!side, ROOM);
        }
    }
    for (unsigned side = 0; side < SIDES; side++) {
        if (put[side].len != came[side].len || memcmp(put[side].bytes, came[side].bytes, put[side].len) != 0)
            fail("what came isn't what was put, side", side);
        if (state_of(&ends[side]).put_count != state_of(&ends[!side]).received)
            fail("not all has come, side", side);
    }
    for (unsigned side = 0; side < SIDES; side++)
        must(sam_link_free(&ends[side]), "free");
}

int main(int argc, char **argv)
{
    static const uint8_t id[SAM_LINK_ID_BYTES] = "a session's name";
    if (argc != 3)
        return 2;
    seed = strtoull(argv[1], NULL, 10);
    for (unsigned side = 0; side < SIDES; side++) {
        sam_status status;
        while ((status = sam_link_new(&ends[side], side, id)) == SAM_NO_MEMORY)
            ;
        must(status, "new");
    }
    call();
    for (long left = strtol(argv[2], NULL, 10); left > 0; left--)
        step();
    ends_well();
    printf("%u connections, %u breaks, %u refusals, %lu places; %lu and %lu bytes and notes, all came once and in order\n", calls, breaks,
           refused, (unsigned long)placed, (unsigned long)came[0].len, (unsigned long)came[1].len);
    return 0;
}
