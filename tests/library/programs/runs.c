/*
 * runs: command lines that a client runs as one call. Each is told once: that it has run, and where in the command file stands what it
 * printed; that it was refused; or that it lapsed, because the session is over. What a line does is worked out by hand, as
 * docs/reference/COMMANDS.md has it. It ends with status 0, or 1 and the line that failed.
 */
#include "client_session.h"

enum { LONG_LINE = 400000, MOST_PRINTED = 65536, MOST_KEPT = 100000, MOST_WAITING = 1000, TOO_MUCH_AT_ONCE = 1000, PIECE = 512, LINES_OF_PIECES = 2 };

static char room[SAM_MOST_RUNES + 1];
static bool is_long; /* the file has more runes than the copy may have */

/* A line is asked for, and has this number; or none is, and no number is handed out. */
static uint64_t run(uint16_t tag, const char *line, size_t len, sam_status status)
{
    uint64_t request = 77;
    WANT(sam_client_run(&client, tag, (const uint8_t *)line, len, &request), status);
    WANT(status == SAM_OK || request == 77, 1);
    if (status == SAM_OK)
        newest_request = request;
    return request;
}

static uint64_t run_words(const char *line)
{
    return run(1, line, strlen(line), SAM_OK);
}

/* Goes on, over the line, until this is told. */
static sam_did until_told(sam_client_event wanted)
{
    for (int turn = 0; turn < 10000; turn++) {
        sam_client_event told = SAM_CLIENT_WIDTH;
        sam_did did;
        sam_splice splice;
        uint8_t piece[SAM_LINK_MOST_NOTE];
        size_t count = 0;
        WANT(sam_client_next_event(&client, now, &told, &did), SAM_OK);
        while (sam_client_next_splice(&client, &splice) == SAM_OK)
            if (!is_long)
                take_splice(&splice);
        if (did.request > told_request)
            told_request = did.request;
        if (told == wanted)
            return did;
        if (told != SAM_CLIENT_IDLE)
            continue;
        WANT(sam_client_take_out(&client, attempt, piece, sizeof piece, &count), SAM_OK);
        DONE(sam_link_feed(&host_end, attempt, piece, count));
        host_turn();
        WANT(sam_link_take_out(&host_end, attempt, piece, sizeof piece, &count), SAM_OK);
        DONE(sam_client_receive(&client, attempt, piece, count, now));
    }
    WANT(0, 1);
    exit(1);
}

/* The next line that is told is this one, and it printed these words. */
static void ran(uint64_t request, const char *words)
{
    static uint8_t bytes[MOST_PRINTED];
    size_t len = 0;
    uint32_t runes = 0;
    sam_did did = until_told(SAM_CLIENT_RAN);
    WANT(did.request, request);
    WANT(did.came, strlen(words));
    WANT(did.task == 0 && did.event == 0 && did.why == SAM_OK && did.tag == 0 && did.gone == 0, 1);
    WANT(READ(sam_client_text(&client, 0, did.start, bytes, did.came, &len, &runes)), SAM_OK);
    WANT(len, strlen(words));
    WANT(memcmp(bytes, words, len), 0);
}

static uint32_t command_len(void)
{
    uint32_t len = 0;
    WANT(READ(sam_client_len(&client, 0, &len)), SAM_OK);
    return len;
}

/* Lines run in order, each on the text as it was shown when it was asked for. What they print is loaded as they are told. */
static void in_order(void)
{
    static const uint32_t marks[] = {'!', '?'};
    open_both("one\ntwo\n", true);
    type(8, 0, "!", &marks[0], 1);
    uint64_t first = run_words("1p"), second = run_words(",x/o/c/0/"), third = run_words("2,$p");
    type(9, 0, "?", &marks[1], 1);
    ran(first, "one\n");
    ran(second, "");
    ran(third, "tw0\n!");
    ran(run_words("zz"), "? command\n");
    shows(1, "0ne\ntw0\n!?");
    settle();
    same_text(&host, 1, "0ne\ntw0\n!?");
    free_both();
}

/* A line that is a piece or more long is typed in pieces, and is one line. */
static void long_lines(void)
{
    size_t all = 1;
    open_both("d", true);
    for (size_t pieces = 1; pieces <= LINES_OF_PIECES; pieces++)
        for (size_t len = PIECE * pieces - 3; len <= PIECE * pieces; len++) {
            ran(run_words("#0,#1p"), "d"); /* that stands unended in front of the line, and would remove what was printed */
            memcpy(room, "$a/", 3);
            memset(room + 3, 'y', len - 4);
            room[len - 1] = '/';
            ran(run(1, room, len, SAM_OK), "");
            settle();
            uint32_t shown = 0;
            all += len - 4;
            WANT(READ(sam_client_len(&client, 1, &shown)), SAM_OK);
            WANT(shown, all);
        }
    free_both();
}

/* A file of so many runes less three, all of which a line prints. Returns the line's number. */
static uint64_t print_much(size_t len)
{
    open_both("a", true);
    is_long = true;
    memset(room, 'b', len);
    memcpy(room, ",c/", 3);
    room[len] = '/';
    ran(run(1, room, len + 1, SAM_OK), "");
    return run_words(",p");
}

/* More than is told of what a line printed isn't loaded; and the next line empties a command file that has so much. */
static void printed_much(void)
{
    uint64_t request = print_much(MOST_KEPT);
    sam_did did = until_told(SAM_CLIENT_RAN);
    WANT(did.request, request);
    WANT(did.came, MOST_PRINTED);
    uint32_t gap = 0;
    WANT(READ(sam_client_first_gap(&client, 0, did.start, &gap)), SAM_OK);
    WANT(gap >= did.start + MOST_PRINTED, 1);
    WANT(command_len() >= MOST_KEPT, 1);
    ran(run_words("0p"), "");
    WANT(command_len() < 10, 1);
    is_long = false;
    free_both();
}

/* A line that the host answers only after a break is told once. */
static void over_a_break(void)
{
    open_both("one\ntwo\n", true);
    uint64_t request = run_words("1p");
    go_on();
    cut(ROOM, 0);
    connect();
    ran(request, "one\n");
    cut(0, 0);
    connect();
    settle();
    sam_client_event told = SAM_CLIENT_WIDTH;
    sam_did did;
    WANT(sam_client_next_event(&client, now, &told, &did), SAM_OK);
    WANT(told, SAM_CLIENT_IDLE);
    free_both();
}

/* The session is over: a line that is under way lapses, and each request that has not acted, in their order, once. */
static void lapses(void)
{
    sam_note ended = {.kind = SAM_NOTE_ENDED};
    uint8_t bytes[ROOM], piece[SAM_LINK_MOST_NOTE];
    size_t len = 0, count = 0;
    open_both("one\ntwo\n", true);
    ran(run_words("0p"), ""); /* the command file is open */
    uint64_t first = run_words("1p");
    go_on();
    uint64_t second = run_words("2p");
    go_on();
    WANT(ask_for(SAM_EVENT_LOOK, 1, 0, 0), SAM_OK);
    WANT(newest_request, second + 1);
    WANT(sam_note_write(&ended, NULL, NULL, NULL, bytes, sizeof bytes, &len), SAM_OK);
    WANT(sam_link_put_note(&host_end, bytes, len), SAM_OK);
    WANT(sam_link_take_out(&host_end, attempt, piece, sizeof piece, &count), SAM_OK);
    WANT(sam_client_receive(&client, attempt, piece, count, now), SAM_OK);
    WANT(steps(SAM_CLIENT_NOTE).request, 0);
    WANT(steps(SAM_CLIENT_LAPSED).request, first);
    for (uint64_t number = first + 1; number <= newest_request; number++)
        WANT(steps(SAM_CLIENT_LAPSED).request, number);
    WANT(steps(SAM_CLIENT_IDLE).request, 0);
    run(1, "1p", 2, SAM_OK); /* it is taken, and lapses, too */
    while (steps(SAM_CLIENT_LAPSED).request < newest_request)
        ;
    WANT(steps(SAM_CLIENT_IDLE).request, 0);
    free_both();
}

/* What a line printed doesn't come any more once the user has left: the line lapses. */
static void leaves(void)
{
    uint64_t request = print_much(TOO_MUCH_AT_ONCE);
    WANT(ask_for(SAM_EVENT_EXIT, 0, 0, 0), SAM_OK);
    WANT(until_told(SAM_CLIENT_LAPSED).request, request);
    is_long = false;
    free_both();
}

/* Each refusal, in their order: the line is not asked for. */
static void refusals(void)
{
    open_both("one\ntwo\n", true);
    memset(room, ' ', LONG_LINE + 2);
    memcpy(room + LONG_LINE - 2, "1p", 2);
    room[LONG_LINE + 1] = '\n';
    run(2, "\xFF\n", 2, SAM_NOT_TEXT);
    run(2, room, LONG_LINE + 2, SAM_NOT_TEXT);
    run(2, room, LONG_LINE + 1, SAM_REFUSAL_NOT_OPEN);
    run(0, "1p", 2, SAM_REFUSAL_NOT_OPEN);
    run(1, room, LONG_LINE + 1, SAM_REFUSAL_TEXT_TOO_LONG);
    ran(run(1, room, LONG_LINE, SAM_OK), "one\n");
    size_t waiting = 0;
    while (ask_for(SAM_EVENT_SELECT, 1, 0, 0) == SAM_OK)
        WANT(READ(sam_client_requests(&client, &waiting)), SAM_OK);
    WANT(waiting, MOST_WAITING);
    run(1, "1p", 2, SAM_TOO_MANY);
    settle();
    ran(run_words("1p"), "one\n");
    WANT(ask_for(SAM_EVENT_EXIT, 0, 0, 0), SAM_OK);
    settle();
    run(1, "1p", 2, SAM_REFUSAL_NOT_OPEN);
    free_both();
}

/* Behind a request that closes a file no line is taken for it, though it is open until then: the line would find another file. */
static void behind_a_close(void)
{
    open_both("one\n", true);
    memset(room, ' ', LONG_LINE + 1);
    WANT(ask_for(SAM_EVENT_CLOSE, 1, 0, 0), SAM_OK);
    shows(1, "one\n");
    run(1, "1p\n", 3, SAM_NOT_TEXT);
    run(1, "1p", 2, SAM_REFUSAL_NOT_OPEN);
    run(1, room, LONG_LINE + 1, SAM_REFUSAL_NOT_OPEN);
    settle();
    run(1, "1p", 2, SAM_REFUSAL_NOT_OPEN);
    free_both();
}

static void no_handles(sam_client *none)
{
    uint64_t request = 77;
    WANT(sam_client_run(none, 1, BYTES("1p"), &request), SAM_NO_HANDLE);
    WANT(sam_client_run(none, 1, BYTES("\xFF"), &request), SAM_NO_HANDLE);
    WANT(request, 77);
}

int main(void)
{
    sam_client empty = SAM_CLIENT_INIT;
    no_handles(NULL);
    no_handles(&empty);
    in_order();
    long_lines();
    printed_much();
    over_a_break();
    lapses();
    leaves();
    refusals();
    behind_a_close();
    WANT((unsigned long)blocks, 0);
    puts("each command line is told once, with what it printed");
    return 0;
}
