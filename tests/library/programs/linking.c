/*
 * linking: each call of a link where it does its work, and each status that it can return but for full counts and SAM_NO_MEMORY, which
 * breaks.c meets. The bytes stand in docs/reference/LINK.md. Calls that are said to take no memory ask for none (reading.h). It ends with
 * status 0, or 1 and the line that failed.
 */
#include "reading.h"

#include "link_bytes.h"
#include "wanting.h"

#define NO_BYTES "\0\0\0\0\0\0\0\0\0\0\0\0\0\0\0\0"

static void no_handles(sam_link *link)
{
    uint8_t bytes[SAM_LINK_MOST_NOTE] = "unused";
    uint64_t number = 5;
    uint32_t phase = 6;
    size_t count = 7;
    sam_place place = {8, 9};
    WANT(sam_link_free(link), SAM_NO_HANDLE);
    WANT(sam_link_call(link, false, &number), SAM_NO_HANDLE);
    WANT(sam_link_welcomed(link, BYTES("x")), SAM_NO_HANDLE);
    WANT(sam_link_answer(link, BYTES("x")), SAM_NO_HANDLE);
    WANT(sam_link_broken(link, 0), SAM_NO_HANDLE);
    WANT(sam_link_put(link, BYTES("x")), SAM_NO_HANDLE);
    WANT(sam_link_put_note(link, BYTES("x")), SAM_NO_HANDLE);
    WANT(sam_link_ask(link), SAM_NO_HANDLE);
    WANT(sam_link_acknowledge(link), SAM_NO_HANDLE);
    WANT(sam_link_take_out(link, 0, bytes, sizeof bytes, &count), SAM_NO_HANDLE);
    WANT(sam_link_feed(link, 0, BYTES("x")), SAM_NO_HANDLE);
    WANT(sam_link_feed_into(link, 0, BYTES("x"), bytes, sizeof bytes, &count), SAM_NO_HANDLE);
    WANT(sam_link_feed_places(link, 0, BYTES("x"), &place, 1, &count), SAM_NO_HANDLE);
    WANT(sam_link_take_in(link, bytes, sizeof bytes, &count), SAM_NO_HANDLE);
    WANT(sam_link_next_note(link, bytes, 0, &count), SAM_NO_HANDLE);
    WANT(sam_link_phase(link, &phase), SAM_NO_HANDLE);
    WANT(sam_link_attempt(link, &number), SAM_NO_HANDLE);
    WANT(sam_link_put_count(link, &number), SAM_NO_HANDLE);
    WANT(sam_link_acknowledged(link, &number), SAM_NO_HANDLE);
    WANT(sam_link_unsent(link, &count), SAM_NO_HANDLE);
    WANT(sam_link_received(link, &number), SAM_NO_HANDLE);
    WANT(memcmp(bytes, "unused", 7) == 0 && number == 5 && phase == 6 && count == 7, 1);
    WANT(place.start == 8 && place.len == 9, 1);
}

/* Hellos without a handle: what is wrong shows as early as it can, and what the pointers lead to is then as it was. */
static void hellos(void)
{
    static const char hello[] = HELLO("\2", "\7", "\x09");
    uint8_t name[SAM_LINK_ID_BYTES] = "unused", refusal[SAM_LINK_HELLO_BYTES] = "unused";
    uint64_t attempt = 5;
    uint32_t what = 6;
    for (size_t len = 0; len < SAM_LINK_HELLO_BYTES; len++)
        WANT(READ(sam_link_read_hello((const uint8_t *)hello, len, &what, name, &attempt)), SAM_NONE);
    WANT(sam_link_read_hello(BYTES("\x89x"), &what, name, &attempt), SAM_LINK_NOT_A_LINK);
    WANT(sam_link_read_hello(BYTES("\x89samlink\2"), &what, name, &attempt), SAM_LINK_OTHER_VERSION);
    WANT(sam_link_read_hello(BYTES(MARK "\5"), &what, name, &attempt), SAM_LINK_BAD_HELLO);
    WANT(attempt == 5 && what == 6 && memcmp(name, "unused", 7) == 0, 1);
    WANT(sam_link_read_hello(BYTES(HELLO("\2", "\7", "\x09") "more"), &what, name, &attempt), SAM_OK);
    WANT(attempt == 7 && what == SAM_LINK_RESUME && memcmp(name, ID, sizeof name) == 0, 1);

    WANT(sam_link_write_refusal(SAM_LINK_WRONG_ROLE, BYTES(""), refusal), SAM_NONE);
    WANT(sam_link_write_refusal(17, BYTES(""), refusal), SAM_NONE);
    WANT(memcmp(refusal, "unused", 7), 0);
    WANT(READ(sam_link_write_refusal(SAM_LINK_OLD_ATTEMPT, (const uint8_t *)hello, SAM_LINK_HELLO_BYTES, refusal)), SAM_OK);
    WANT(memcmp(refusal, HELLO("\x16", "\7", "\0"), sizeof refusal), 0);
    WANT(sam_link_write_refusal(SAM_LINK_NOT_A_LINK, BYTES("GET /"), refusal), SAM_OK);
    WANT(memcmp(refusal, MARK "\x11" NO_BYTES EIGHT("\0") EIGHT("\0"), sizeof refusal), 0);
}

/* The calls of the other side, and hellos that are refused, each before those after it. */
static void refused_hellos(sam_link *terminal, sam_link *host)
{
    uint64_t attempt = 9;
    WANT(sam_link_call(host, false, &attempt), SAM_LINK_WRONG_ROLE);
    WANT(attempt, 9);
    WANT(sam_link_welcomed(host, BYTES("GET")), SAM_LINK_NOT_A_LINK);
    WANT(sam_link_welcomed(host, BYTES(MARK)), SAM_NONE);
    WANT(sam_link_welcomed(host, BYTES(HELLO("\4", "\1", "\0"))), SAM_LINK_WRONG_ROLE);
    WANT(sam_link_answer(terminal, BYTES("\x89samlink\2")), SAM_LINK_OTHER_VERSION);
    WANT(sam_link_answer(terminal, BYTES(MARK "\1")), SAM_NONE);
    WANT(sam_link_answer(terminal, BYTES(HELLO("\1", "\1", "\0"))), SAM_LINK_WRONG_ROLE);
    WANT(sam_link_answer(host, BYTES(MARK "\5")), SAM_LINK_BAD_HELLO);
    WANT(sam_link_answer(host, BYTES(HELLO("\4", "\0", "\1"))), SAM_LINK_BAD_HELLO);
    WANT(sam_link_answer(host, BYTES(MARK "\2" NO_BYTES EIGHT("\0") EIGHT("\1"))), SAM_LINK_NO_SESSION);
    WANT(sam_link_answer(host, BYTES(MARK "\1" NO_BYTES EIGHT("\0") EIGHT("\1"))), SAM_LINK_OTHER_SESSION);
    WANT(sam_link_answer(host, BYTES(HELLO("\1", "\0", "\1"))), SAM_LINK_OLD_ATTEMPT);
    WANT(sam_link_answer(host, BYTES(HELLO("\1", "\1", "\1"))), SAM_LINK_WRONG_COUNT);
    WANT(sam_link_welcomed(terminal, BYTES(HELLO("\x14", "\1", "\0"))), SAM_LINK_NOT_OPEN);
    WANT(READ(sam_link_call(terminal, true, &attempt)), SAM_OK);
    WANT(attempt, 1);
    WANT(sam_link_welcomed(terminal, BYTES(HELLO("\x14", "\1", "\0"))), SAM_LINK_NO_SESSION);
    WANT(sam_link_welcomed(terminal, BYTES(HELLO("\1", "\0", "\1"))), SAM_LINK_BAD_HELLO);
    WANT(sam_link_welcomed(terminal, BYTES(MARK "\4" NO_BYTES EIGHT("\0") EIGHT("\1"))), SAM_LINK_OTHER_SESSION);
    WANT(sam_link_welcomed(terminal, BYTES(HELLO("\4", "\0", "\1"))), SAM_LINK_OLD_ATTEMPT);
    WANT(sam_link_welcomed(terminal, BYTES(HELLO("\4", "\1", "\1"))), SAM_LINK_WRONG_COUNT);
    WANT(sam_link_feed(terminal, 1, BYTES("")), SAM_LINK_NOT_OPEN);
}

/* What the terminal puts goes out byte for byte as the page has it, comes in at the host, and is acknowledged. */
static void bytes_go(sam_link *terminal, sam_link *host)
{
    static const char out[] = HELLO("\3", "\1", "\0") DATA "\0\2hi" NOTE "\0\4note" DATA "\0\1!" ASK "\0\0";
    static uint8_t bytes[SAM_LINK_MOST_NOTE];
    uint64_t number = 0;
    uint32_t phase = 9;
    size_t count = 0;
    WANT(sam_link_put(terminal, BYTES("hi")), SAM_OK);
    WANT(sam_link_put_note(terminal, BYTES("note")), SAM_OK);
    WANT(sam_link_put_note(terminal, bytes, SAM_LINK_MOST_NOTE + 1), SAM_LINK_TOO_LONG);
    WANT(sam_link_put(terminal, BYTES("!")), SAM_OK);
    WANT(sam_link_ask(terminal), SAM_OK);
    WANT(READ(sam_link_take_out(terminal, 2, bytes, sizeof bytes, &count)), SAM_LINK_NOT_OPEN);
    WANT(READ(sam_link_take_out(terminal, 1, bytes, sizeof bytes, &count)), SAM_OK);
    WANT(count == sizeof out - 1 && memcmp(bytes, out, count) == 0, 1);
    WANT(READ(sam_link_answer(host, bytes, SAM_LINK_HELLO_BYTES)), SAM_OK);
    WANT(sam_link_feed(host, 1, bytes + SAM_LINK_HELLO_BYTES, count - SAM_LINK_HELLO_BYTES), SAM_OK);
    WANT(sam_link_next_note(host, bytes, sizeof bytes, &count), SAM_NONE); /* data come before it */
    WANT(READ(sam_link_take_in(host, bytes, 1, &count)), SAM_OK);
    WANT(count == 1 && bytes[0] == 'h', 1);
    WANT(sam_link_take_in(host, bytes, sizeof bytes, &count), SAM_OK);
    WANT(count == 1 && bytes[0] == 'i', 1);
    WANT(sam_link_take_in(host, bytes, sizeof bytes, &count), SAM_OK);
    WANT(count, 0);
    WANT(sam_link_next_note(host, bytes, SAM_LINK_MOST_NOTE - 1, &count), SAM_LINK_NO_ROOM);
    WANT(READ(sam_link_next_note(host, bytes, sizeof bytes, &count)), SAM_OK);
    WANT(count == 4 && memcmp(bytes, "note", 4) == 0, 1);
    WANT(sam_link_take_out(host, 1, bytes, sizeof bytes, &count), SAM_OK);
    WANT(count == 53 && memcmp(bytes, HELLO("\4", "\1", "\0") ACKNOWLEDGEMENT "\0\x08" EIGHT("\x13"), count) == 0, 1);
    WANT(READ(sam_link_welcomed(terminal, bytes, SAM_LINK_HELLO_BYTES)), SAM_OK);
    WANT(sam_link_feed(terminal, 1, bytes + SAM_LINK_HELLO_BYTES, 11), SAM_OK);
    WANT(READ(sam_link_put_count(terminal, &number)), SAM_OK);
    WANT(number, 19);
    WANT(READ(sam_link_acknowledged(terminal, &number)), SAM_OK);
    WANT(number, 19);
    WANT(READ(sam_link_unsent(terminal, &count)), SAM_OK);
    WANT(count, 0);
    WANT(READ(sam_link_received(terminal, &number)), SAM_OK);
    WANT(number, 11);
    WANT(READ(sam_link_attempt(terminal, &number)), SAM_OK);
    WANT(number, 1);
    WANT(READ(sam_link_phase(terminal, &phase)), SAM_OK);
    WANT(phase, SAM_LINK_OPEN);
}

/* A piece goes into the buffer at once, as far as there is room and up to a note; what is left is taken in later. */
static void at_once(sam_link *terminal, sam_link *host)
{
    static const char out[] = DATA "\0\5hello" NOTE "\0\1n" DATA "\0\1!";
    uint8_t bytes[64], into[8] = "unused!", note[SAM_LINK_MOST_NOTE];
    size_t count = 0, came = 9;
    WANT(sam_link_take_in(host, bytes, sizeof bytes, &count), SAM_OK);
    WANT(count == 1 && bytes[0] == '!', 1); /* what was left of earlier pieces */
    WANT(sam_link_put(terminal, BYTES("hello")), SAM_OK);
    WANT(sam_link_put_note(terminal, BYTES("n")), SAM_OK);
    WANT(sam_link_put(terminal, BYTES("!")), SAM_OK);
    WANT(sam_link_take_out(terminal, 1, bytes, sizeof bytes, &count), SAM_OK);
    WANT(count == sizeof out - 1 && memcmp(bytes, out, count) == 0, 1);
    WANT(sam_link_feed_into(host, 2, bytes, count, into, sizeof into, &came), SAM_LINK_NOT_OPEN);
    WANT(came == 9 && memcmp(into, "unused!", 8) == 0, 1);
    WANT(sam_link_feed_into(host, 1, bytes, 10, into, 3, &came), SAM_OK);
    WANT(came == 3 && memcmp(into, "helsed!", 8) == 0, 1);
    WANT(sam_link_feed_into(host, 1, bytes + 10, count - 10, into, sizeof into, &came), SAM_OK);
    WANT(came == 2 && memcmp(into, "lolsed!", 8) == 0, 1);
    WANT(sam_link_feed_into(host, 1, bytes, 0, into, sizeof into, &came), SAM_OK);
    WANT(came, 0); /* a note is next */
    WANT(READ(sam_link_next_note(host, note, sizeof note, &count)), SAM_OK);
    WANT(count == 1 && note[0] == 'n', 1);
    WANT(sam_link_feed_into(host, 1, bytes, 0, into, sizeof into, &came), SAM_OK);
    WANT(came == 1 && memcmp(into, "!olsed!", 8) == 0, 1);
}

static bool is_place(sam_place place, size_t start, size_t len)
{
    return place.start == start && place.len == len;
}

/* Bytes stay where they are in the piece, as far as there are places and up to a note; what is left is taken in later. */
static void by_place(sam_link *terminal, sam_link *host)
{
    uint8_t bytes[64], note[SAM_LINK_MOST_NOTE];
    sam_place places[3] = {{90, 91}, {92, 93}, {94, 95}};
    size_t count = 0, wrote = 9;
    WANT(sam_link_put(terminal, BYTES("hello")), SAM_OK);
    WANT(sam_link_put_note(terminal, BYTES("n")), SAM_OK);
    WANT(sam_link_put(terminal, BYTES("!")), SAM_OK);
    WANT(sam_link_take_out(terminal, 1, bytes, sizeof bytes, &count), SAM_OK);
    WANT(sam_link_feed_places(host, 2, bytes, count, places, 3, &wrote), SAM_LINK_NOT_OPEN);
    WANT(wrote == 9 && is_place(places[0], 90, 91), 1);
    WANT(sam_link_feed_places(host, 1, bytes, count, places, 3, &wrote), SAM_OK);
    WANT(wrote == 1 && is_place(places[0], 3, 5) && is_place(places[1], 92, 93), 1); /* a note is next */
    WANT(READ(sam_link_take_in(host, bytes, sizeof bytes, &count)), SAM_OK);
    WANT(count, 0);
    WANT(READ(sam_link_next_note(host, note, sizeof note, &count)), SAM_OK);
    WANT(count == 1 && note[0] == 'n', 1);
    WANT(sam_link_feed_places(host, 1, bytes, 0, places, 3, &wrote), SAM_OK);
    WANT(wrote == 0 && is_place(places[0], 3, 5), 1); /* what waits does not lie in the piece */
    WANT(sam_link_take_in(host, bytes, sizeof bytes, &count), SAM_OK);
    WANT(count == 1 && bytes[0] == '!', 1);
    for (const char *word = "abc"; *word; word++)
        WANT(sam_link_put(terminal, (const uint8_t *)word, 1), SAM_OK);
    WANT(sam_link_take_out(terminal, 1, bytes, sizeof bytes, &count), SAM_OK);
    WANT(sam_link_feed_places(host, 1, bytes, count, places, 2, &wrote), SAM_OK);
    WANT(wrote == 2 && is_place(places[0], 3, 1) && is_place(places[1], 7, 1) && is_place(places[2], 94, 95), 1);
    WANT(sam_link_take_in(host, bytes, sizeof bytes, &count), SAM_OK);
    WANT(count == 1 && bytes[0] == 'c', 1); /* there was no room for its place */
    WANT(sam_link_put(terminal, BYTES("in two")), SAM_OK);
    WANT(sam_link_take_out(terminal, 1, bytes, sizeof bytes, &count), SAM_OK);
    WANT(sam_link_feed_places(host, 1, bytes, 5, places, 3, &wrote), SAM_OK);
    WANT(wrote, 0);
    WANT(sam_link_feed_places(host, 1, bytes + 5, count - 5, places, 3, &wrote), SAM_OK);
    WANT(wrote, 0);
    WANT(sam_link_take_in(host, bytes, sizeof bytes, &count), SAM_OK);
    WANT(count == 6 && memcmp(bytes, "in two", 6) == 0, 1);
}

/* Packets that are wrong, each on a connection of its own, which is then over, while nothing else has changed. */
static void wrong_packets(sam_link *host)
{
    static const struct {
        const char *bytes;
        size_t len;
        sam_status status;
    } wrong[] = {
        {"\0", 1, SAM_LINK_BAD_KIND},
        {ASK "\0\0\5", 4, SAM_LINK_BAD_KIND},
        {DATA "\0\0", 3, SAM_LINK_BAD_LENGTH},
        {NOTE "\x10\1", 3, SAM_LINK_BAD_LENGTH},
        {ACKNOWLEDGEMENT "\0\x08" EIGHT("\x63"), 11, SAM_LINK_ACK_AHEAD},
        {ACKNOWLEDGEMENT "\0\x08" EIGHT("\x63") "\5", 12, SAM_LINK_BAD_KIND},
    };
    uint64_t received = 0, put = 0, number = 0;
    uint32_t phase = 9;
    WANT(sam_link_received(host, &received), SAM_OK);
    WANT(sam_link_put_count(host, &put), SAM_OK);
    for (unsigned i = 0; i < sizeof wrong / sizeof wrong[0]; i++) {
        uint8_t hello[SAM_LINK_HELLO_BYTES + 1] = HELLO("\2", "\0", "\x0b");
        hello[33] = (uint8_t)(i + 2); /* the connection's number */
        WANT(sam_link_answer(host, hello, SAM_LINK_HELLO_BYTES), SAM_OK);
        WANT(sam_link_feed(host, i + 1, (const uint8_t *)wrong[i].bytes, wrong[i].len), SAM_LINK_NOT_OPEN);
        WANT(sam_link_feed(host, i + 2, (const uint8_t *)wrong[i].bytes, wrong[i].len), wrong[i].status);
        WANT(sam_link_feed(host, i + 2, (const uint8_t *)wrong[i].bytes, wrong[i].len), SAM_LINK_NOT_OPEN);
        WANT(sam_link_phase(host, &phase), SAM_OK);
        WANT(phase, SAM_LINK_DOWN);
        WANT(sam_link_received(host, &number), SAM_OK);
        WANT(number, received);
        WANT(sam_link_put_count(host, &number), SAM_OK);
        WANT(number, put);
    }
    WANT(sam_link_acknowledge(host), SAM_OK);
    WANT(sam_link_put_count(host, &number), SAM_OK);
    WANT(number, put + 11);
}

int main(void)
{
    sam_link terminal = SAM_LINK_INIT, host = {0};
    uint32_t phase = 9;
    no_handles(NULL);
    WANT(sam_link_new(NULL, SAM_LINK_HOST, id), SAM_NO_HANDLE);
    no_handles(&terminal);
    hellos();
    WANT(sam_link_new(&terminal, 2, id), SAM_LINK_WRONG_ROLE);
    no_handles(&terminal);
    WANT(sam_link_new(&terminal, SAM_LINK_TERMINAL, id), SAM_OK);
    WANT(sam_link_new(&terminal, 2, id), SAM_MADE);
    WANT(sam_link_new(&host, SAM_LINK_HOST, id), SAM_OK);
    refused_hellos(&terminal, &host);
    bytes_go(&terminal, &host);
    at_once(&terminal, &host);
    by_place(&terminal, &host);
    wrong_packets(&host);
    WANT(READ(sam_link_broken(&terminal, 0)), SAM_OK); /* an older connection */
    WANT(sam_link_phase(&terminal, &phase), SAM_OK);
    WANT(phase, SAM_LINK_OPEN);
    WANT(sam_link_broken(&terminal, 1), SAM_OK);
    WANT(sam_link_phase(&terminal, &phase), SAM_OK);
    WANT(phase, SAM_LINK_DOWN);
    WANT(sam_link_free(&terminal), SAM_OK);
    WANT(sam_link_free(&host), SAM_OK);
    no_handles(&terminal);
    WANT((unsigned long)blocks, 0);
    puts("right");
    return 0;
}
