/* steady: a host and a terminal whose pending bytes are never all taken, and two ends of a link that never take in all that came. What was
 * sent, acknowledged or taken leaves memory all the same: many rounds later no more of it is in use. */
#include "must.h"

#include <malloc.h>
#include <stdbool.h>
#include <stdio.h>

enum { FIRST_ROUNDS = 1000, ROUNDS = 50000, MOST_MORE = 16384, PUT = 100 /* bytes of a round, at each end of the link */ };

/* Feeds the host all that the terminal has pending but its last byte, and the terminal what the host has, in the same way. */
static void carry(sam_term *term, sam_host *host)
{
    uint8_t bytes[256];
    size_t count, pending;
    MUST(sam_term_pending(term, &pending));
    while (pending > 1) {
        MUST(sam_term_take_out(term, bytes, pending - 1 < sizeof bytes ? pending - 1 : sizeof bytes, &count));
        MUST(sam_host_feed(host, bytes, count));
        pending -= count;
    }
    MUST(sam_host_pending(host, &pending));
    while (pending > 1) {
        MUST(sam_host_take_out(host, bytes, pending - 1 < sizeof bytes ? pending - 1 : sizeof bytes, &count));
        MUST(sam_term_feed(term, bytes, count));
        pending -= count;
    }
}

/* Opens the file, with every byte carried. */
static void begin(sam_term *term, sam_host *host, uint16_t tag)
{
    uint8_t bytes[256];
    size_t count, more;
    MUST(sam_term_offer_version(term, 2));
    MUST(sam_term_open(term, tag));
    do {
        MUST(sam_term_take_out(term, bytes, sizeof bytes, &count));
        MUST(sam_host_feed(host, bytes, count));
        MUST(sam_host_take_out(host, bytes, sizeof bytes, &more));
        MUST(sam_term_feed(term, bytes, more));
    } while (count > 0 || more > 0);
}

/* One rune gives way to another, and the terminal asks whether it lacks any. */
static void play(sam_term *term, sam_host *host, uint16_t tag, int rounds)
{
    for (int round = 0; round < rounds; round++) {
        MUST(sam_term_select(term, tag, 0, 1));
        MUST(sam_term_type(term, tag, (const uint8_t *)"x", 1));
        MUST(sam_term_check(term, tag));
        carry(term, host);
    }
}

/* Moves all that one end has for the connection to the other. */
static void cross(sam_link *from, sam_link *to, uint64_t attempt)
{
    uint8_t bytes[256];
    size_t count;
    do {
        MUST(sam_link_take_out(from, attempt, bytes, sizeof bytes, &count));
        MUST(sam_link_feed(to, attempt, bytes, count));
    } while (count > 0);
}

/* Takes in so many bytes. */
static void take(sam_link *link, size_t left)
{
    uint8_t bytes[64];
    size_t count;
    while (left > 0) {
        MUST(sam_link_take_in(link, bytes, left < sizeof bytes ? left : sizeof bytes, &count));
        left -= count;
    }
}

/* Each end says hello, and puts a byte that the other never takes in before it takes all of a round. */
static uint64_t meet(sam_link *terminal, sam_link *host)
{
    uint8_t hello[SAM_LINK_HELLO_BYTES];
    uint64_t attempt;
    size_t count;
    MUST(sam_link_call(terminal, false, &attempt));
    MUST(sam_link_take_out(terminal, attempt, hello, sizeof hello, &count));
    MUST(sam_link_answer(host, hello, count));
    MUST(sam_link_take_out(host, attempt, hello, sizeof hello, &count));
    MUST(sam_link_welcomed(terminal, hello, count));
    MUST(sam_link_put(terminal, hello, 1));
    MUST(sam_link_put(host, hello, 1));
    return attempt;
}

/* Each end puts as much as the other takes in, so a byte always waits there. */
static void exchange(sam_link *terminal, sam_link *host, uint64_t attempt, int rounds)
{
    static const uint8_t bytes[PUT];
    for (int round = 0; round < rounds; round++) {
        MUST(sam_link_put(terminal, bytes, sizeof bytes));
        MUST(sam_link_put(host, bytes, sizeof bytes));
        cross(terminal, host, attempt);
        cross(host, terminal, attempt);
        take(host, sizeof bytes);
        take(terminal, sizeof bytes);
    }
}

static size_t in_use(void)
{
    struct mallinfo2 now = mallinfo2();
    return now.uordblks + now.hblkhd;
}

/* Whether no more memory is in use than before all but the first rounds. */
static bool is_steady(const char *what, size_t first)
{
    size_t last = in_use();
    if (last <= first + MOST_MORE)
        return true;
    printf("%s: %zu bytes in use after %d rounds, %zu after %d more\n", what, first, FIRST_ROUNDS, last, ROUNDS);
    return false;
}

static bool endpoints_are_steady(void)
{
    sam_host host = SAM_HOST_INIT;
    sam_term term = SAM_TERM_INIT;
    uint16_t tag;
    uint64_t events;
    MUST(sam_host_new(&host));
    MUST(sam_term_new(&term));
    MUST(sam_host_add_file(&host, (const uint8_t *)"file", 4, (const uint8_t *)"text", 4, &tag));
    begin(&term, &host, tag);
    play(&term, &host, tag, FIRST_ROUNDS);
    size_t first = in_use();
    play(&term, &host, tag, ROUNDS);
    bool steady = is_steady("endpoints", first);
    MUST(sam_term_events(&term, &events));
    MUST(sam_host_free(&host));
    MUST(sam_term_free(&term));
    return steady && events >= 3 * ROUNDS;
}

static bool link_is_steady(void)
{
    static const uint8_t id[SAM_LINK_ID_BYTES] = "steady";
    sam_link terminal = SAM_LINK_INIT, host = SAM_LINK_INIT;
    uint64_t acknowledged;
    MUST(sam_link_new(&terminal, SAM_LINK_TERMINAL, id));
    MUST(sam_link_new(&host, SAM_LINK_HOST, id));
    uint64_t attempt = meet(&terminal, &host);
    exchange(&terminal, &host, attempt, FIRST_ROUNDS);
    size_t first = in_use();
    exchange(&terminal, &host, attempt, ROUNDS);
    bool steady = is_steady("link", first);
    MUST(sam_link_acknowledged(&terminal, &acknowledged));
    MUST(sam_link_free(&terminal));
    MUST(sam_link_free(&host));
    return steady && acknowledged > (uint64_t)ROUNDS * PUT;
}

int main(void)
{
    bool endpoints = endpoints_are_steady(), link = link_is_steady();
    return endpoints && link ? 0 : 1;
}
