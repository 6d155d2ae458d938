/*
 * lines: each call of a line where it does its work, and each status that it can return but for full counts and SAM_NO_MEMORY, which
 * outages.c meets. The bytes stand in docs/reference/LINK.md, the times in sulgrevad.h. Calls that are said to take no memory ask for none
 * (reading.h). It ends with status 0, or 1 and the line that failed.
 */
#include "reading.h"

#include "link_bytes.h"
#include "wanting.h"

#define WORDS "\x89sam: a login\n" /* which begin as a hello does */

enum { MOST_WORDS = 65536, MOST_ANSWERS = 65536, ANSWER = 11 };

static void no_handles(sam_line *line)
{
    uint8_t bytes[SAM_LINK_MOST_NOTE] = "unused";
    sam_line_details details = {.silence = 3}, unused = details;
    uint64_t number = 5;
    uint32_t tick = 6;
    size_t count = 7;
    WANT(sam_line_free(line), SAM_NO_HANDLE);
    WANT(sam_line_tick(line, 0, &tick), SAM_NO_HANDLE);
    WANT(sam_line_due_in(line, 0, &number), SAM_NO_HANDLE);
    WANT(sam_line_connected(line, 0, &number), SAM_NO_HANDLE);
    WANT(sam_line_not_connected(line, 0), SAM_NO_HANDLE);
    WANT(sam_line_broken(line, 1, 0), SAM_NO_HANDLE);
    WANT(sam_line_address_changed(line, 0), SAM_NO_HANDLE);
    WANT(sam_line_expect(line, true, 0), SAM_NO_HANDLE);
    WANT(sam_line_put(line, BYTES("x"), 0), SAM_NO_HANDLE);
    WANT(sam_line_put_note(line, BYTES("x"), 0), SAM_NO_HANDLE);
    WANT(sam_line_ask(line, 0), SAM_NO_HANDLE);
    WANT(sam_line_acknowledge(line), SAM_NO_HANDLE);
    WANT(sam_line_take_out(line, 1, bytes, sizeof bytes, &count), SAM_NO_HANDLE);
    WANT(sam_line_receive(line, 1, BYTES("x"), 0), SAM_NO_HANDLE);
    WANT(sam_line_take_in(line, bytes, sizeof bytes, &count), SAM_NO_HANDLE);
    WANT(sam_line_next_note(line, bytes, 0, &count), SAM_NO_HANDLE);
    WANT(sam_line_describe(line, 0, &details), SAM_NO_HANDLE);
    WANT(sam_line_words(line, bytes, sizeof bytes, &count), SAM_NO_HANDLE);
    WANT(memcmp(bytes, "unused", 7) == 0 && number == 5 && tick == 6 && count == 7, 1);
    WANT(memcmp(&details, &unused, sizeof details), 0);
}

static sam_line_details details_of(sam_line *line, uint64_t now)
{
    sam_line_details details;
    WANT(READ(sam_line_describe(line, now, &details)), SAM_OK);
    return details;
}

static uint32_t tick_of(sam_line *line, uint64_t now)
{
    uint32_t tick = 9;
    WANT(READ(sam_line_tick(line, now, &tick)), SAM_OK);
    return tick;
}

static uint64_t due_in(sam_line *line, uint64_t now)
{
    uint64_t left = 9;
    WANT(READ(sam_line_due_in(line, now, &left)), SAM_OK);
    return left;
}

/* Another connection is open, and its hello has gone out. */
static uint64_t connect(sam_line *line, uint64_t now)
{
    uint8_t hello[SAM_LINK_HELLO_BYTES];
    uint64_t attempt = 0;
    size_t count = 0;
    WANT(READ(sam_line_connected(line, now, &attempt)), SAM_OK);
    WANT(READ(sam_line_take_out(line, attempt, hello, sizeof hello, &count)), SAM_OK);
    WANT(count, sizeof hello);
    return attempt;
}

/* The host's hello on the connection of this number. */
static sam_status say(sam_line *line, uint8_t what, uint64_t attempt, uint64_t now)
{
    uint8_t hello[SAM_LINK_HELLO_BYTES + 1] = HELLO("\0", "\0", "\0");
    hello[9] = what;
    hello[33] = (uint8_t)attempt;
    return sam_line_receive(line, attempt, hello, SAM_LINK_HELLO_BYTES, now);
}

static sam_line made(bool take_over)
{
    sam_line line = SAM_LINE_INIT;
    WANT(sam_line_new(&line, id, take_over, 1000), SAM_OK);
    WANT(sam_line_new(&line, id, take_over, 1000), SAM_MADE);
    return line;
}

/* What is put goes out byte for byte as the page has it; words of a login, the welcome and what stands behind it come in. */
static void bytes_go(void)
{
    static const char out[] = HELLO("\3", "\1", "\0") DATA "\0\2hi" NOTE "\0\4note" ASK "\0\0";
    static const char in[] = WORDS HELLO("\4", "\1", "\0") ACKNOWLEDGEMENT "\0\x08" EIGHT("\x0f") DATA "\0\3new" NOTE "\0\2ok";
    static uint8_t bytes[SAM_LINK_MOST_NOTE];
    sam_line line = made(true);
    uint64_t attempt = 0;
    size_t count = 0;
    WANT(sam_line_put(&line, BYTES("hi"), 1000), SAM_OK);
    WANT(sam_line_put_note(&line, BYTES("note"), 1000), SAM_OK);
    WANT(sam_line_put_note(&line, bytes, SAM_LINK_MOST_NOTE + 1, 1000), SAM_LINK_TOO_LONG);
    WANT(sam_line_ask(&line, 1000), SAM_OK);
    WANT(READ(sam_line_ask(&line, 1000)), SAM_OK); /* such a question is under way */
    WANT(tick_of(&line, 1000), SAM_TICK_CONNECT);
    WANT(READ(sam_line_connected(&line, 1020, &attempt)), SAM_OK);
    WANT(READ(sam_line_take_out(&line, 2, bytes, sizeof bytes, &count)), SAM_LINK_NOT_OPEN);
    WANT(READ(sam_line_take_out(&line, attempt, bytes, sizeof bytes, &count)), SAM_OK);
    WANT(count == sizeof out - 1 && memcmp(bytes, out, count) == 0, 1);
    WANT(sam_line_receive(&line, 2, BYTES(in), 1030), SAM_LINK_NOT_OPEN);
    WANT(details_of(&line, 1030).state, SAM_LINE_CONNECTING);
    for (size_t at = 0; at < sizeof in - 1; at++)
        WANT(sam_line_receive(&line, attempt, (const uint8_t *)in + at, 1, 1040), SAM_OK);
    WANT(READ(sam_line_words(&line, bytes, sizeof bytes, &count)), SAM_OK);
    WANT(count == sizeof WORDS - 1 && memcmp(bytes, WORDS, count) == 0, 1);
    WANT(READ(sam_line_words(&line, bytes, 4, &count)), SAM_OK);
    WANT(count, 4);
    WANT(READ(sam_line_next_note(&line, bytes, sizeof bytes, &count)), SAM_NONE); /* data come before it */
    WANT(READ(sam_line_take_in(&line, bytes, sizeof bytes, &count)), SAM_OK);
    WANT(count == 3 && memcmp(bytes, "new", 3) == 0, 1);
    WANT(READ(sam_line_take_in(&line, bytes, sizeof bytes, &count)), SAM_OK);
    WANT(count, 0);
    WANT(READ(sam_line_next_note(&line, bytes, SAM_LINK_MOST_NOTE - 1, &count)), SAM_LINK_NO_ROOM);
    WANT(READ(sam_line_next_note(&line, bytes, sizeof bytes, &count)), SAM_OK);
    WANT(count == 2 && memcmp(bytes, "ok", 2) == 0, 1);

    sam_line_details details = details_of(&line, 1050);
    WANT(details.state == SAM_LINE_OPEN && details.why == SAM_OK && details.is_known && details.has_all && details.attempt == 1, 1);
    WANT(details.put_count == 15 && details.acknowledged == 15 && details.received == 22 && details.failures == 0 && details.silence == 0,
         1);
    WANT(READ(sam_line_due_in(&line, 1050, &attempt)), SAM_NONE);
    WANT(sam_line_acknowledge(&line), SAM_OK);
    WANT(sam_line_take_out(&line, 1, bytes, sizeof bytes, &count), SAM_OK);
    WANT(count == ANSWER && memcmp(bytes, ACKNOWLEDGEMENT "\0\x08" EIGHT("\x16"), count) == 0, 1);
    WANT(READ(sam_line_free(&line)), SAM_OK);
}

/* A silent line is asked after 15 seconds and given up after 15 more; the answer to a question is measured. */
static void silence(void)
{
    static const char answer[] = ACKNOWLEDGEMENT "\0\x08" EIGHT("\x08");
    sam_line line = made(false);
    WANT(due_in(&line, 1000), 0);
    WANT(tick_of(&line, 1000), SAM_TICK_CONNECT);
    WANT(tick_of(&line, 1000), SAM_TICK_NOTHING);
    WANT(due_in(&line, 1000) == 30000 && !details_of(&line, 1000).is_broken, 1); /* none has failed yet */
    WANT(connect(&line, 2000), 1);
    WANT(say(&line, SAM_LINK_WELCOME, 1, 2000), SAM_OK);
    WANT(details_of(&line, 2000).overdue_after == 1000 && !details_of(&line, 2000).is_broken, 1);
    WANT(sam_line_put(&line, BYTES("hi"), 2100), SAM_OK);
    WANT(sam_line_ask(&line, 2100), SAM_OK);
    WANT(!details_of(&line, 2100).has_all && due_in(&line, 2100) == 15000, 1);
    uint8_t bytes[64];
    size_t count = 0;
    WANT(sam_line_take_out(&line, 1, bytes, sizeof bytes, &count), SAM_OK);
    WANT(count == 8 && memcmp(bytes, DATA "\0\2hi" ASK "\0\0", count) == 0, 1);
    WANT(sam_line_receive(&line, 1, BYTES(answer), 2220), SAM_OK);
    WANT(details_of(&line, 2220).has_all && details_of(&line, 2220).round_trip == 120, 1);
    WANT(details_of(&line, 2220).overdue_after, 1240); /* a second, and two round trips */

    WANT(sam_line_put(&line, BYTES("!"), 3000), SAM_OK);
    WANT(details_of(&line, 2500).silence, 0); /* the time doesn't go back */
    WANT(tick_of(&line, 17999), SAM_TICK_NOTHING);
    WANT(tick_of(&line, 18000), SAM_TICK_ASK);
    WANT(details_of(&line, 18000).state == SAM_LINE_LATE && details_of(&line, 18000).silence == 15000, 1);
    WANT(tick_of(&line, 32999), SAM_TICK_NOTHING);
    WANT(tick_of(&line, 33000), SAM_TICK_DROP);
    WANT(sam_line_take_out(&line, 1, bytes, sizeof bytes, &count), SAM_LINK_NOT_OPEN);
    WANT(details_of(&line, 33000).is_broken, 1);
    WANT(tick_of(&line, 33000), SAM_TICK_CONNECT);
    WANT(sam_line_free(&line), SAM_OK);
}

/* While the program waits for an answer one is due, though all is acknowledged. Nothing is asked before the line is late. */
static void waits(void)
{
    static const char answer[] = ACKNOWLEDGEMENT "\0\x08" EIGHT("\x03");
    sam_line line = made(false);
    uint64_t left = 9;
    uint8_t bytes[64];
    size_t count = 9;
    WANT(say(&line, SAM_LINK_WELCOME, connect(&line, 1000), 1000), SAM_OK);
    WANT(READ(sam_line_due_in(&line, 1000, &left)), SAM_NONE);
    WANT(READ(sam_line_expect(&line, true, 2000)), SAM_OK);
    WANT(due_in(&line, 2000), 15000);
    WANT(READ(sam_line_expect(&line, true, 3000)), SAM_OK); /* it does so already */
    WANT(due_in(&line, 3000) == 14000 && details_of(&line, 3000).silence == 1000 && details_of(&line, 3000).has_all, 1);
    WANT(READ(sam_line_ask(&line, 3000)), SAM_OK);
    WANT(READ(sam_line_take_out(&line, 1, bytes, sizeof bytes, &count)), SAM_OK);
    WANT(count, 0);
    WANT(tick_of(&line, 17000), SAM_TICK_ASK);
    WANT(sam_line_ask(&line, 17000), SAM_OK);
    WANT(READ(sam_line_take_out(&line, 1, bytes, sizeof bytes, &count)), SAM_OK);
    WANT(count == 3 && memcmp(bytes, ASK "\0\0", count) == 0, 1);
    WANT(sam_line_receive(&line, 1, BYTES(answer), 17100), SAM_OK); /* the host is there, and its program has not answered */
    WANT(details_of(&line, 17100).state == SAM_LINE_OPEN && due_in(&line, 17100) == 15000, 1);
    WANT(READ(sam_line_expect(&line, false, 18000)), SAM_OK);
    WANT(READ(sam_line_due_in(&line, 18000, &left)), SAM_NONE);
    WANT(details_of(&line, 18000).silence, 0);
    WANT(READ(sam_line_expect(&line, true, 20000)), SAM_OK);
    WANT(tick_of(&line, 35000), SAM_TICK_ASK);
    WANT(tick_of(&line, 50000), SAM_TICK_DROP);
    WANT(connect(&line, 50000), 2);
    WANT(sam_line_receive(&line, 2, BYTES(HELLO("\4", "\2", "\3")), 50000), SAM_OK);
    WANT(due_in(&line, 50000), 15000); /* over all connections */
    WANT(sam_line_free(&line), SAM_OK);
}

/* Pauses grow. An older connection, and a connection that wasn't asked for, change nothing. */
static void pauses(void)
{
    static const uint64_t wanted[] = {0, 0, 1000, 2000, 4000, 8000, 16000, 30000, 30000};
    sam_line line = made(false);
    uint64_t now = 1000;
    WANT(READ(sam_line_not_connected(&line, now)), SAM_OK);
    for (size_t i = 0; i < sizeof wanted / sizeof wanted[0]; i++) {
        WANT(due_in(&line, now), wanted[i]);
        now += wanted[i];
        WANT(tick_of(&line, now), SAM_TICK_CONNECT);
        WANT(READ(sam_line_not_connected(&line, now)), SAM_OK);
    }
    WANT(details_of(&line, now).failures, 6);
    WANT(READ(sam_line_address_changed(&line, now)), SAM_OK);
    WANT(due_in(&line, now), 1000);
    uint64_t attempt = connect(&line, now);
    WANT(say(&line, SAM_LINK_WELCOME, attempt, now), SAM_OK);
    WANT(READ(sam_line_broken(&line, attempt + 1, now)), SAM_OK);
    WANT(details_of(&line, now).state, SAM_LINE_OPEN);
    WANT(READ(sam_line_address_changed(&line, now)), SAM_OK);
    WANT(details_of(&line, now).state == SAM_LINE_LATE && due_in(&line, now) == 2000, 1);
    WANT(READ(sam_line_broken(&line, attempt, now + 1000)), SAM_OK); /* it stood for a second */
    WANT(details_of(&line, now + 1000).state == SAM_LINE_DOWN && due_in(&line, now + 1000) == 0, 1);
    WANT(sam_line_free(&line), SAM_OK);
}

/* A refusal of the host that ends the line: at once, or after a minute where the session was there. */
static void lost(void)
{
    sam_line line = made(false);
    WANT(say(&line, SAM_LINK_WELCOME, connect(&line, 1000), 1000), SAM_OK);
    WANT(sam_line_broken(&line, 1, 1500), SAM_OK);
    WANT(say(&line, 20, connect(&line, 2000), 2000), SAM_LINK_NO_SESSION);
    WANT(details_of(&line, 2000).state, SAM_LINE_DOWN);
    WANT(say(&line, 20, connect(&line, 61999), 61999), SAM_LINK_NO_SESSION);
    WANT(details_of(&line, 61999).why, SAM_OK);
    WANT(say(&line, 20, connect(&line, 62000), 62000), SAM_LINK_NO_SESSION);
    WANT(details_of(&line, 62000).state == SAM_LINE_LOST && details_of(&line, 62000).why == SAM_LINK_NO_SESSION, 1);
    WANT(tick_of(&line, 100000), SAM_TICK_NOTHING);
    WANT(sam_line_free(&line), SAM_OK);
}

/* What ends a connection alone, each on a line of its own. */
static void wrong(void)
{
    static const struct {
        const char *bytes;
        size_t len;
        sam_status status;
    } pieces[] = {
        {MARK "\5", 10, SAM_LINK_WRONG_HELLO},
        {HELLO("\4", "\2", "\0"), 42, SAM_LINK_WRONG_HELLO},
        {HELLO("\x11", "\1", "\0"), 42, SAM_LINK_NOT_A_LINK},
        {HELLO("\x13", "\1", "\0"), 42, SAM_LINK_BAD_HELLO},
        {HELLO("\x16", "\1", "\0"), 42, SAM_LINK_OLD_ATTEMPT},
        {HELLO("\4", "\1", "\0") "\5", 43, SAM_LINK_BAD_KIND},
        {HELLO("\4", "\1", "\0") DATA "\0\0", 45, SAM_LINK_BAD_LENGTH},
        {HELLO("\4", "\1", "\0") ACKNOWLEDGEMENT "\0\x08" EIGHT("\1"), 53, SAM_LINK_ACK_AHEAD},
    };
    static const uint8_t ends[] = {18, 21, 23}; /* refusals that end the line at once */
    static const sam_status why[] = {SAM_LINK_OTHER_VERSION, SAM_LINK_OTHER_SESSION, SAM_LINK_WRONG_COUNT};
    for (size_t i = 0; i < sizeof pieces / sizeof pieces[0]; i++) {
        sam_line line = made(false);
        connect(&line, 1000);
        WANT(sam_line_receive(&line, 1, (const uint8_t *)pieces[i].bytes, pieces[i].len, 1000), pieces[i].status);
        WANT(sam_line_receive(&line, 1, (const uint8_t *)pieces[i].bytes, pieces[i].len, 1000), SAM_LINK_NOT_OPEN);
        WANT(details_of(&line, 1000).state == SAM_LINE_DOWN && details_of(&line, 1000).failures == 1, 1);
        WANT(sam_line_free(&line), SAM_OK);
    }
    for (size_t i = 0; i < sizeof ends; i++) {
        sam_line line = made(false);
        WANT(say(&line, ends[i], connect(&line, 1000), 1000), why[i]);
        WANT(details_of(&line, 1000).state == SAM_LINE_LOST && details_of(&line, 1000).why == (uint32_t)why[i], 1);
        WANT(sam_line_free(&line), SAM_OK);
    }
}

/* What a host may send without end is bounded: words before its hello, and questions. */
static void bounds(void)
{
    static uint8_t words[MOST_WORDS];
    sam_line line = made(false);
    uint64_t attempt = connect(&line, 1000);
    WANT(sam_line_receive(&line, attempt, words, sizeof words, 1000), SAM_OK);
    WANT(sam_line_receive(&line, attempt, words, 1, 1000), SAM_LINK_TOO_MANY_WORDS);
    attempt = connect(&line, 1000);
    WANT(say(&line, SAM_LINK_WELCOME, attempt, 1000), SAM_OK);
    for (unsigned kept = 0; kept < MOST_ANSWERS; kept += ANSWER)
        WANT(sam_line_receive(&line, attempt, BYTES(ASK "\0\0"), 1000), SAM_OK);
    WANT(sam_line_receive(&line, attempt, BYTES(ASK "\0\0"), 1000), SAM_LINK_TOO_MANY_ANSWERS);
    WANT(details_of(&line, 1000).state, SAM_LINE_DOWN);
    WANT(sam_line_free(&line), SAM_OK);
}

int main(void)
{
    sam_line line = {0};
    no_handles(NULL);
    WANT(sam_line_new(NULL, id, false, 0), SAM_NO_HANDLE);
    no_handles(&line);
    bytes_go();
    silence();
    waits();
    pauses();
    lost();
    wrong();
    bounds();
    WANT((unsigned long)blocks, 0);
    puts("right");
    return 0;
}
