/*
 * outages SEED STEPS: a random session of a line and a host's end over connections that break, fall silent, or bring words first, by a
 * clock that goes on by chance. The program makes and closes connections as the line says. What comes out at each side is what was put at
 * the other, each byte and note once and in order. A call that finds no memory is made again, and has changed nothing that the readers
 * say. It prints what it met, the same whether memory is refused or not.
 */
#include "carried.h"

#include <string.h>

enum { FLIGHT = 400000, MOST_PUT = 3000, ROUNDS = 2000 }; /* a hello alone arrives whole in one round of 43 */

static sam_line line;
static sam_link host;
static struct log put_up, put_down, came_up, came_down;
static uint8_t up[FLIGHT], down[FLIGHT]; /* what the connection has on its way */
static size_t up_len, down_len;
static bool is_open, is_met, is_dead; /* the connection stands; the host has the line's hello; nothing arrives any more */
static uint64_t attempt, now;
static unsigned connections, breaks, drops, asks;

/* Whether the line says the same of itself. Where a piece has the host's welcome, that may have been taken. */
static bool is_as_before(const sam_line_details *was, sam_line_details is)
{
    if (was->state == SAM_LINE_CONNECTING && is.is_known) {
        is.is_known = was->is_known;
        is.acknowledged = was->acknowledged;
        is.has_all = was->has_all;
    }
    return memcmp(&is, was, sizeof is) == 0;
}

/* A call is made again where memory is out. What the line says of itself stays as it was. */
#define MEMORY(call)                                                                                                                       \
    do {                                                                                                                                   \
        sam_line_details was = details();                                                                                                  \
        sam_status status;                                                                                                                 \
        while ((status = (call)) == SAM_NO_MEMORY)                                                                                         \
            if (!is_as_before(&was, details()))                                                                                            \
                fail("no memory changes something: " #call, 1);                                                                            \
        must(status, #call);                                                                                                               \
    } while (0)

static sam_line_details details(void)
{
    sam_line_details told;
    memset(&told, 0, sizeof told); /* what fills it up, too */
    MUST(sam_line_describe(&line, now, &told));
    return told;
}

/* The line and the host put what they like. */
static void put(void)
{
    static uint8_t bytes[MOST_PUT];
    size_t len = pick(MOST_PUT);
    bool is_note = pick(3) == 0, is_up = pick(2) == 0;
    memset(bytes, (int)pick(256), len);
    if (is_up && is_note)
        MEMORY(sam_line_put_note(&line, bytes, len, now));
    else if (is_up)
        MEMORY(sam_line_put(&line, bytes, len, now));
    else
        MEMORY(is_note ? sam_link_put_note(&host, bytes, len) : sam_link_put(&host, bytes, len));
    struct log *log = is_up ? &put_up : &put_down;
    is_note ? log_note(log, bytes, len) : log_data(log, bytes, len);
}

/* What came at a side goes to its program. */
static void take_in(void)
{
    static uint8_t bytes[SAM_LINK_MOST_NOTE];
    size_t len;
    for (bool is_more = true; is_more;) {
        is_more = false;
        while (MUST(sam_line_take_in(&line, bytes, 1 + pick(sizeof bytes), &len)), len > 0)
            log_data(&came_down, bytes, len);
        while (sam_line_next_note(&line, bytes, sizeof bytes, &len) == SAM_OK)
            log_note(&came_down, bytes, len), is_more = true;
        while (MUST(sam_link_take_in(&host, bytes, 1 + pick(sizeof bytes), &len)), len > 0)
            log_data(&came_up, bytes, len);
        while (sam_link_next_note(&host, bytes, sizeof bytes, &len) == SAM_OK)
            log_note(&came_up, bytes, len), is_more = true;
    }
}

static void hang_up(void)
{
    is_open = is_met = is_dead = false;
    up_len = down_len = 0;
    MUST(sam_link_broken(&host, attempt));
}

/* The connection breaks, and the line hears of it. */
static void cut(void)
{
    if (!is_open)
        return;
    breaks++;
    hang_up();
    MUST(sam_line_broken(&line, attempt, now));
}

static void connect(void)
{
    static const char words[] = "\x89sam: a login\n";
    if (pick(4) == 0) {
        MUST(sam_line_not_connected(&line, now));
        return;
    }
    MUST(sam_line_connected(&line, now, &attempt));
    is_open = true;
    connections++;
    if (pick(2) == 0) {
        memcpy(down, words, sizeof words - 1);
        down_len = sizeof words - 1;
    }
}

/* Does what the line says. */
static void tick(void)
{
    for (uint32_t said = SAM_TICK_ASK; said != SAM_TICK_NOTHING;) {
        MUST(sam_line_tick(&line, now, &said));
        if (said == SAM_TICK_CONNECT)
            connect();
        if (said == SAM_TICK_DROP)
            drops++, hang_up();
        asks += said == SAM_TICK_ASK;
    }
    MEMORY(sam_line_ask(&line, now));
}

/* What the sides have for the connection gets under way. */
static void write_out(void)
{
    size_t len;
    MUST(sam_line_take_out(&line, attempt, up + up_len, pick((uint32_t)(FLIGHT - up_len) + 1), &len));
    up_len += len;
    if (is_met) {
        MUST(sam_link_take_out(&host, attempt, down + down_len, pick((uint32_t)(FLIGHT - down_len) + 1), &len));
        down_len += len;
    }
}

static void drop_front(uint8_t *flight, size_t *len, size_t count)
{
    memmove(flight, flight + count, *len - count);
    *len -= count;
}

/* Some of it arrives. */
static void arrive(void)
{
    size_t count = pick((uint32_t)up_len + 1), least = is_met ? 0 : SAM_LINK_HELLO_BYTES;
    if (up_len >= least && count >= least) {
        if (!is_met)
            MEMORY(sam_link_answer(&host, up, SAM_LINK_HELLO_BYTES));
        is_met = true;
        MEMORY(sam_link_feed(&host, attempt, up + least, count - least));
        drop_front(up, &up_len, count);
    }
    count = pick((uint32_t)down_len + 1);
    MEMORY(sam_line_receive(&line, attempt, down, count, now));
    drop_front(down, &down_len, count);
    if (pick(9) == 0)
        MEMORY(sam_line_acknowledge(&line));
}

static void step(void)
{
    uint64_t left = 0;
    sam_status status = sam_line_due_in(&line, now, &left);
    if (status == SAM_OK && pick(is_open ? 30 : 2) == 0)
        now += left; /* the program has waited */
    else
        now += pick(400);
    tick();
    if (pick(3) == 0)
        put();
    if (is_open && pick(40) == 0)
        is_dead = true;
    if (is_open && pick(30) == 0)
        cut();
    if (pick(60) == 0)
        MUST(sam_line_address_changed(&line, now));
    if (pick(60) == 0)
        MUST(sam_line_expect(&line, pick(2) == 0, now));
    if (is_open)
        write_out();
    if (is_open && !is_dead)
        arrive();
    take_in();
}

/* Nothing breaks any more, and the program waits for all that the host has put: the line says when all has come. */
static void end_well(void)
{
    MUST(sam_line_expect(&line, true, now));
    for (unsigned round = 0; round < ROUNDS && (!details().has_all || came_down.len != put_down.len); round++) {
        uint64_t left = 0;
        if (sam_line_due_in(&line, now, &left) == SAM_OK && (is_dead || !is_open))
            now += left;
        tick();
        if (is_open)
            write_out();
        if (is_open && !is_dead)
            arrive();
        take_in();
    }
    if (!details().has_all)
        fail("the line has not all acknowledged", details().state);
    if (put_up.len != came_up.len || memcmp(put_up.bytes, came_up.bytes, put_up.len) != 0)
        fail("what came up isn't what was put", came_up.len);
    if (put_down.len != came_down.len || memcmp(put_down.bytes, came_down.bytes, put_down.len) != 0)
        fail("what came down isn't what was put", came_down.len);
}

int main(int argc, char **argv)
{
    static const uint8_t id[SAM_LINK_ID_BYTES] = "a session's name";
    sam_status status;
    if (argc != 3)
        return 2;
    seed = strtoull(argv[1], NULL, 10);
    while ((status = sam_line_new(&line, id, false, now)) == SAM_NO_MEMORY)
        ;
    must(status, "new");
    while ((status = sam_link_new(&host, SAM_LINK_HOST, id)) == SAM_NO_MEMORY)
        ;
    must(status, "new");
    for (long left = strtol(argv[2], NULL, 10); left > 0; left--)
        step();
    end_well();
    MUST(sam_line_free(&line));
    MUST(sam_link_free(&host));
    printf("%u connections, %u breaks, %u dropped, %u asked; %lu and %lu bytes and notes, all came once and in order\n", connections,
           breaks, drops, asks, (unsigned long)came_up.len, (unsigned long)came_down.len);
    return 0;
}
