/*
 * client: each call of a client where it does its work, and each status that it can return but for full counts, SAM_NO_MEMORY and
 * SAM_UNFINISHED, which parted.c meets. What is shown is worked out by hand from sulgrevad.h, the bytes stand in docs/reference/LINK.md.
 * Calls that are said to take no memory ask for none (reading.h). It ends with status 0, or 1 and the line that failed. The calls of the
 * line are in client_line.c, edits that the host makes meanwhile in client_edits.c.
 */
#include "client_session.h"

/* ---- A session ---- */

/* A write locks the file. What the user types meanwhile is shown at once, also where no connection stands, and comes to the host. */
static void typed_under_a_lock(void)
{
    static const uint32_t world[] = {' ', 'w', 'o', 'r', 'l', 'd'}, letter[] = {'J'};
    sam_file file;
    uint16_t tag = 9;
    open_both("hello", true);
    WANT(has_all() && !is_unsaved(1), 1);
    WANT(READ(sam_client_next_waiting(&client, 0, &tag)), SAM_NONE);
    WANT(ask_for(SAM_EVENT_WRITE, 1, 0, 0), SAM_OK);
    go_on();
    WANT(READ(sam_client_file(&client, 1, &file)), SAM_OK);
    WANT(file.is_locked, true);
    type(5, 0, " world", world, 6);
    cut(ROOM, 0); /* the write is on its way, and lost there */
    type(0, 1, "J", letter, 1);
    shows(1, "Jello world");
    WANT(waiting(), 7);
    WANT(READ(sam_client_next_waiting(&client, 1, &tag)), SAM_OK);
    WANT(tag, 1);
    WANT(!has_all() && is_unsaved(1), 1);
    same_text(&host, 1, "hello");
    connect();
    settle();
    WANT(has_all() && is_unsaved(1) && waiting() == 0, 1);
    same_text(&host, 1, "Jello world");
    WANT(ask_for(SAM_EVENT_WRITE, 1, 0, 0), SAM_OK);
    settle();
    WANT(has_all() && !is_unsaved(1), 1);
    WANT(sam_client_replace(&client, 1, 0, 0, BYTES("x")), SAM_OK);
    WANT(details_of().has_all && !has_all() && is_unsaved(1), 1); /* the line has nothing yet that the host has not */
    free_both();
}

static size_t requests(void)
{
    size_t count = 9;
    WANT(READ(sam_client_requests(&client, &count)), SAM_OK);
    return count;
}

/* The file was written so when it was written last. */
static void was_saved(const char *text)
{
    uint8_t bytes[ROOM];
    uint32_t runes = 0;
    size_t len = 0;
    WANT(sam_host_saved(&host, 1, 0, bytes, sizeof bytes, &len, &runes), SAM_OK);
    WANT(len == strlen(text) && memcmp(bytes, text, len) == 0, 1);
}

/* A write that is asked for under the lock of another has the text that was shown then. Behind a close nothing is typed. */
static void in_one_order(void)
{
    static const uint32_t marks[] = {'!', '?'};
    open_both("hello", true);
    WANT(ask_for(SAM_EVENT_WRITE, 1, 0, 0), SAM_OK);
    go_on();
    WANT(requests(), 0);
    type(5, 0, "!", marks, 1);
    WANT(ask_for(SAM_EVENT_WRITE, 1, 0, 0), SAM_OK);
    type(6, 0, "?", marks + 1, 1);
    shows(1, "hello!?");
    WANT(requests() == 1 && !has_all(), 1);
    settle();
    WANT(requests() == 0 && has_all() && is_unsaved(1), 1);
    was_saved("hello!");
    same_text(&host, 1, "hello!?");
    WANT(ask_for(SAM_EVENT_CLOSE, 1, 0, 0), SAM_OK);
    WANT(sam_client_replace(&client, 1, 0, 0, BYTES("x")), SAM_REFUSAL_NOT_OPEN);
    WANT(ask_for(SAM_EVENT_EXIT, 0, 0, 0), SAM_OK);
    WANT(sam_client_replace(&client, 1, 9, 0, BYTES("x")), SAM_REFUSAL_EXITED);
    while (requests() < 1000)
        WANT(ask_for(SAM_EVENT_SEARCH, 1, 0, 0), SAM_OK);
    WANT(ask_for(SAM_EVENT_SEARCH, 1, 0, 0), SAM_TOO_MANY);
    WANT(requests(), 1000);
    free_both();
}

/* The dot of a file goes from here to there. */
static void has_dot(uint16_t tag, uint32_t start, uint32_t end)
{
    sam_file file;
    WANT(READ(sam_client_file(&client, tag, &file)), SAM_OK);
    WANT(file.dot_start, start);
    WANT(file.dot_end, end);
}

/* A command line that works on file 1 is on its way, so all is locked. */
static void command_line(const char *line)
{
    sam_event event = {.kind = SAM_EVENT_TYPE_CMD};
    WANT(sam_client_ask(&client, &event, (const uint8_t *)line, strlen(line), &newest_request), SAM_OK);
    go_on();
}

/* Ranges that are asked for under a lock move with what the host puts in and takes out before them, and not with what is typed later. */
static void places_move(void)
{
    static const uint32_t marks[] = {'!', '?'};
    open_both("hello", true);
    WANT(ask_for(SAM_EVENT_WORK, 1, 0, 0), SAM_OK);
    settle();
    WANT(ask_for(SAM_EVENT_OPEN_CMD, 0, 0, 0), SAM_OK);
    settle();
    command_line("0i/ab/\n");
    type(5, 0, "!", marks, 1);
    WANT(ask_for(SAM_EVENT_SELECT, 1, 1, 4), SAM_OK);
    WANT(requests(), 1);
    settle();
    shows(1, "abhello!");
    has_dot(1, 3, 6);
    command_line("#3,#5d\n");
    WANT(ask_for(SAM_EVENT_SELECT, 1, 2, 6), SAM_OK);
    type(0, 0, "?", marks + 1, 1);
    WANT(requests(), 1);
    settle();
    shows(1, "?abhlo!");
    has_dot(1, 3, 5); /* `hl`: `?` was put behind the request, so it moved the dot */
    command_line(",d\n");
    WANT(ask_for(SAM_EVENT_SELECT, 1, 1, 3), SAM_OK);
    settle();
    shows(1, "");
    has_dot(1, 0, 0);
    free_both();
}

/* A file and a range of it may be asked for at once: the range is one of the text that is to come. */
static void place_in_a_text_to_come(void)
{
    uint16_t tag = 0;
    open_both("hello", true);
    WANT(sam_host_add_file(&host, BYTES("b"), BYTES("again"), &tag), SAM_OK);
    WANT(ask_for(SAM_EVENT_OFFER_VERSION, 0, 0, 0), SAM_OK);
    settle();
    WANT(ask_for(SAM_EVENT_OPEN, tag, 0, 0), SAM_OK);
    WANT(ask_for(SAM_EVENT_SELECT, tag, 1, 4), SAM_OK);
    WANT(requests(), 2);
    settle();
    has_dot(tag, 1, 4);
    free_both();
}

/* A note comes out behind what had acted when it was put; the host's note behind the frames before it. */
static void notes(void)
{
    uint8_t bytes[SAM_LINK_MOST_NOTE];
    size_t count = 0;
    open_both("hello", true);
    unsigned long up = notes_up, down = notes_down;
    WANT(ask_for(SAM_EVENT_SELECT, 1, 0, 5), SAM_OK);
    go_on();
    WANT(ask_for(SAM_EVENT_SNARF, 1, 0, 0), SAM_OK);
    go_on();
    WANT(sam_client_put_note(&client, BYTES("up"), now), SAM_OK);
    WANT(READ(sam_client_take_out(&client, attempt, bytes, sizeof bytes, &count)), SAM_OK);
    WANT(count > 5 && memcmp(bytes + count - 5, NOTE "\0\2up", 5) == 0, 1);
    WANT(sam_link_feed(&host_end, attempt, bytes, count), SAM_OK);
    host_turn();
    WANT(notes_up, up + 1);
    WANT(sam_link_put_note(&host_end, BYTES("down")), SAM_OK);
    settle();
    WANT(notes_down, down + 1);
    WANT(READ(sam_client_note(&client, bytes, sizeof bytes, &count)), SAM_OK);
    WANT(count == 4 && memcmp(bytes, "down", 4) == 0, 1);
    WANT(ask_for(SAM_EVENT_CHECK, 1, 0, 0), SAM_OK);
    WANT(ask_for(SAM_EVENT_CHECK, 1, 0, 0), SAM_OK);
    WANT(next_event() == SAM_CLIENT_STEPPED && next_event() == SAM_CLIENT_STEPPED, 1); /* the first is composed, and not in the line */
    WANT(sam_client_put_note(&client, BYTES("up"), now), SAM_OK);
    WANT(READ(sam_client_take_out(&client, attempt, bytes, sizeof bytes, &count)), SAM_OK);
    WANT(count > 8 && bytes[0] == DATA[0] && memcmp(bytes + count - 5, NOTE "\0\2up", 5) == 0, 1);
    free_both();
}

/* ---- The command file ---- */

/* Requests are numbered as they are taken, and a write that is shared as the one that it shares. Each is told of once, in their order, as it
 * acts or is refused; an edit has no number. */
static void numbers(void)
{
    static const uint32_t typed = 'x';
    open_both("hello", true);
    uint64_t before = newest_request;
    WANT(before > 0 && told_request == before, 1);
    requests_told = 0;
    for (int i = 0; i < 2; i++) {
        type(0, 0, "x", &typed, 1);
        WANT(ask_for(SAM_EVENT_WRITE, 1, 0, 0), SAM_OK);
        WANT(ask_for(SAM_EVENT_WRITE, 1, 0, 0), SAM_OK);
        WANT(newest_request, before + 1 + (uint64_t)i);
    }
    WANT(ask_for(SAM_EVENT_SELECT, 1, 0, 99), SAM_OK);
    WANT(newest_request, before + 3);
    for (int i = 0; i < 2; i++) {
        WANT(ask_for(SAM_EVENT_WRITE, 1, 0, 0), SAM_OK);
        WANT(newest_request, before + 4);
    }
    WANT(ask_for(SAM_EVENT_SELECT, 1, 0, 1), SAM_OK);
    WANT(newest_request, before + 5);
    settle();
    WANT(requests_told == 5 && told_request == before + 5, 1);
    WANT(refused_request, before + 3);
    free_both();
}

/* What is typed there is shown once it acts, and splices tell of it; the line that it ends runs. */
static void command_file(void)
{
    sam_event event = {.kind = SAM_EVENT_TYPE_CMD, .tag = 9};
    open_both("hello", true);
    WANT(ask_for(SAM_EVENT_WORK, 1, 0, 0), SAM_OK);
    settle();
    WANT(ask_for(SAM_EVENT_OPEN_CMD, 0, 0, 0), SAM_OK);
    settle();
    WANT(sam_client_ask(&client, &event, BYTES(",x/l/c/L/\n"), &newest_request), SAM_OK);
    WANT(steps(SAM_CLIENT_STEPPED).step, SAM_STEP_ACTED);
    wants_splice(SAM_SPLICE_WENT, 0, 0, 0);
    wants_splice(SAM_SPLICE_CAME, 0, 10, 0);
    settle();
    shows(1, "heLLo");
    same_text(&host, 1, "heLLo");
    WANT(is_unsaved(1) && !is_unsaved(0), 1);
    free_both();
}

/* A file that is closed is empty, and what waited over it is gone: the user closed it. */
static void closed(void)
{
    uint32_t runes = 5;
    sam_did did;
    open_both("hello", true);
    WANT(ask_for(SAM_EVENT_CLOSE, 1, 0, 0), SAM_OK);
    go_on();
    while (carry_up(SAM_LINK_MOST_NOTE))
        ;
    uint8_t piece[SAM_LINK_MOST_NOTE];
    size_t count = 0;
    WANT(sam_link_take_out(&host_end, attempt, piece, sizeof piece, &count), SAM_OK);
    WANT(sam_client_receive(&client, attempt, piece, count, now), SAM_OK);
    do
        did = steps(SAM_CLIENT_STEPPED);
    while (did.kind != SAM_KIND_HCLOSE && did.kind != SAM_KIND_HDELNAME);
    wants_splice(SAM_SPLICE_EMPTIED, 0, 0, 1);
    settle();
    WANT(READ(sam_client_len(&client, 1, &runes)), SAM_NONE);
    WANT(runes == 5 && waiting() == 0 && !is_unsaved(1), 1);
    free_both();
}

/* ---- Refusals ---- */

static void refusals(void)
{
    static uint8_t million[1000001];
    sam_event event = {.kind = SAM_EVENT_SET_SNARF};
    uint64_t number = 0;
    sam_state state;
    open_both("hello", true);
    WANT(sam_client_replace(&client, 9, 0, 0, BYTES("\xFF")), SAM_NOT_TEXT);
    WANT(sam_client_replace(&client, 9, 0, 0, BYTES("x")), SAM_REFUSAL_NO_FILE);
    WANT(ask_for(SAM_EVENT_OPEN_CMD, 0, 0, 0), SAM_OK);
    settle();
    WANT(sam_client_replace(&client, 0, 9, 0, BYTES("x")), SAM_REFUSAL_COMMAND_FILE);
    WANT(sam_client_replace(&client, 1, 3, 2, BYTES("x")), SAM_REFUSAL_BAD_POSITION);
    WANT(sam_client_replace(&client, 1, 3, 6, BYTES("x")), SAM_REFUSAL_BAD_POSITION);
    memset(million, 'm', sizeof million);
    WANT(sam_client_replace(&client, 1, 0, 5, million, sizeof million - 1), SAM_REFUSAL_TOO_LONG);
    shows(1, "hello");
    WANT(sam_client_ask(&client, &event, BYTES("\xFF"), &number), SAM_NOT_TEXT);
    event.kind = 0;
    WANT(sam_client_ask(&client, &event, NULL, 0, &number), SAM_NONE);
    event.kind = (sam_event_kind)(SAM_EVENT_PASTE_CMD + 1);
    WANT(sam_client_ask(&client, &event, NULL, 0, &number), SAM_NONE);
    WANT(number, 0);
    refused = 0;
    WANT(READ(sam_client_state(&client, &state)), SAM_OK);
    WANT(ask_for(SAM_EVENT_SELECT, 1, 3, 9), SAM_OK);
    go_on();
    WANT(refused == 1 && refused_event == state.events + 1 && refused_why == SAM_REFUSAL_BAD_POSITION, 1);
    WANT(refused_request == newest_request && told_request == newest_request, 1);
    WANT(READ(sam_client_fault_place(&client, &number)), SAM_NONE);
    WANT(ask_for(SAM_EVENT_EXIT, 0, 0, 0), SAM_OK);
    settle();
    WANT(sam_client_replace(&client, 9, 0, 0, BYTES("x")), SAM_REFUSAL_EXITED);
    free_both();
}

/* A file that is known and not open, and a stream that is wrong. */
static void stopped(void)
{
    static uint8_t wrong_frame[] = "\x49\0\0........";
    sam_client_event told = SAM_CLIENT_WIDTH;
    sam_did did = {.event = 8};
    uint16_t tag = 0;
    uint64_t place = 0;
    open_both("hello", true);
    WANT(sam_host_add_file(&host, BYTES("b"), BYTES(""), &tag), SAM_OK);
    WANT(ask_for(SAM_EVENT_OFFER_VERSION, 0, 0, 0), SAM_OK);
    settle();
    WANT(sam_client_replace(&client, tag, 0, 0, BYTES("x")), SAM_REFUSAL_NOT_OPEN);
    tell(wrong_frame, sizeof wrong_frame - 1);
    WANT(sam_client_next_event(&client, now, &told, &did), SAM_BAD_LENGTH);
    WANT(sam_client_next_event(&client, now, &told, &did), SAM_BAD_LENGTH);
    WANT(told == SAM_CLIENT_WIDTH && did.event == 8, 1);
    WANT(sam_client_replace(&client, 9, 0, 0, BYTES("x")), SAM_BAD_LENGTH);
    WANT(READ(sam_client_fault_place(&client, &place)), SAM_OK);
    shows(1, "hello");
    free_both();
}

/* ---- Readers ---- */

static void texts(void)
{
    uint8_t bytes[ROOM];
    uint32_t runes = 0, number = 0;
    uint16_t tag = 7;
    size_t len = 0;
    open_both("h\xC3\xA9llo", false);
    shows(1, "_____");
    WANT(READ(sam_client_first_gap(&client, 1, 2, &number)), SAM_OK);
    WANT(number, 2);
    WANT(READ(sam_client_first_gap(&client, 1, 5, &number)), SAM_NONE);
    WANT(READ(sam_client_first_gap(&client, 9, 0, &number)), SAM_NONE);
    WANT(number, 2);
    WANT(READ(sam_client_len(&client, 9, &number)), SAM_NONE);
    WANT(READ(sam_client_text(&client, 9, 0, bytes, sizeof bytes, &len, &runes)), SAM_NONE);
    WANT(READ(sam_client_read(&client, 9, 0, &number, 1, &runes)), SAM_NONE);
    WANT(ask_for(SAM_EVENT_VIEW, 1, 0, 3), SAM_OK);
    settle();
    WANT(sam_client_replace(&client, 1, 1, 1, BYTES("\xE2\x82\xAC")), SAM_OK);
    WANT(READ(sam_client_next_waiting(&client, 1, &tag)), SAM_OK);
    WANT(tag, 1);
    WANT(READ(sam_client_next_waiting(&client, 2, &tag)), SAM_NONE);
    WANT(READ(sam_client_text(&client, 1, 0, bytes, sizeof bytes, &len, &runes)), SAM_OK);
    WANT(runes >= 4 && memcmp(bytes, "h\xE2\x82\xAC\xC3\xA9l", 7) == 0, 1);
    WANT(READ(sam_client_text(&client, 1, 1, bytes, 4, &len, &runes)), SAM_OK);
    WANT(len == 3 && runes == 1, 1);
    WANT(READ(sam_client_read(&client, 1, 1, &number, 1, &runes)), SAM_OK);
    WANT(runes == 1 && number == 0x20AC, 1);
    free_both();
}

static void names(void)
{
    sam_event event = {.kind = SAM_EVENT_SET_SNARF};
    uint8_t bytes[ROOM];
    uint32_t runes = 0;
    uint16_t tag = 7;
    size_t len = 0;
    open_both("hello", true);
    WANT(READ(sam_client_name(&client, 1, bytes, sizeof bytes, &len)), SAM_OK);
    WANT(len == 1 && bytes[0] == 'a', 1);
    WANT(READ(sam_client_name(&client, 9, bytes, sizeof bytes, &len)), SAM_NONE);
    WANT(READ(sam_client_current(&client, &tag)), SAM_NONE);
    WANT(ask_for(SAM_EVENT_NEW_FILE, 0, 0, 0), SAM_OK);
    settle();
    WANT(READ(sam_client_current(&client, &tag)), SAM_OK);
    WANT(tag, 2);
    WANT(sam_client_ask(&client, &event, BYTES("snarf"), &newest_request), SAM_OK);
    settle();
    WANT(ask_for(SAM_EVENT_GET_SNARF, 0, 0, 0), SAM_OK);
    settle();
    WANT(READ(sam_client_snarfed(&client, 1, bytes, sizeof bytes, &len, &runes)), SAM_OK);
    WANT(len == 4 && runes == 4 && memcmp(bytes, "narf", 4) == 0, 1);
    WANT(ask_for(SAM_EVENT_SELECT, 1, 0, 1), SAM_OK);
    settle();
    WANT(ask_for(SAM_EVENT_LOOK, 1, 0, 0), SAM_OK);
    settle();
    WANT(READ(sam_client_pattern(&client, bytes, sizeof bytes, &len)), SAM_OK);
    WANT(len == 1 && bytes[0] == 'h', 1);
    free_both();
}

int main(void)
{
    typed_under_a_lock();
    in_one_order();
    places_move();
    place_in_a_text_to_come();
    notes();
    numbers();
    command_file();
    closed();
    refusals();
    stopped();
    texts();
    names();
    WANT((unsigned long)blocks, 0);
    puts("each call of a client is right");
    return 0;
}
