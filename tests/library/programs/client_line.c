/*
 * client_line: the calls of a client that are its line's, and each call with a handle that is empty; see client.c. It ends with status 0,
 * or 1 and the line that failed.
 */
#include "client_session.h"

#define WORDS "\x89sam: a login\n" /* which begin as a hello does */

enum { MOST_WORDS = 65536, MOST_ANSWERS = 65536, ANSWER = 11 };

/* ---- A handle that is empty ---- */

static void no_handle_for_the_line(sam_client *none)
{
    uint8_t bytes[ROOM] = "unused";
    sam_line_details details = {.silence = 3}, unused = details;
    uint64_t number = 5;
    uint32_t tick = 6;
    size_t count = 7;
    WANT(sam_client_free(none), SAM_NO_HANDLE);
    WANT(sam_client_tick(none, 0, &tick), SAM_NO_HANDLE);
    WANT(sam_client_due_in(none, 0, &number), SAM_NO_HANDLE);
    WANT(sam_client_connected(none, 0, &number), SAM_NO_HANDLE);
    WANT(sam_client_not_connected(none, 0), SAM_NO_HANDLE);
    WANT(sam_client_broken(none, 1, 0), SAM_NO_HANDLE);
    WANT(sam_client_address_changed(none, 0), SAM_NO_HANDLE);
    WANT(sam_client_expect(none, true, 0), SAM_NO_HANDLE);
    WANT(sam_client_receive(none, 1, BYTES("x"), 0), SAM_NO_HANDLE);
    WANT(sam_client_take_out(none, 1, bytes, sizeof bytes, &count), SAM_NO_HANDLE);
    WANT(sam_client_acknowledge(none), SAM_NO_HANDLE);
    WANT(sam_client_put_note(none, BYTES("x"), 0), SAM_NO_HANDLE);
    WANT(sam_client_note(none, bytes, sizeof bytes, &count), SAM_NO_HANDLE);
    WANT(sam_client_describe(none, 0, &details), SAM_NO_HANDLE);
    WANT(sam_client_words(none, bytes, sizeof bytes, &count), SAM_NO_HANDLE);
    WANT(memcmp(bytes, "unused", 7) == 0 && number == 5 && tick == 6 && count == 7, 1);
    WANT(memcmp(&details, &unused, sizeof details), 0);
}

static void no_handle_for_the_user(sam_client *none)
{
    uint8_t bytes[ROOM] = "unused";
    sam_did did = {.event = 8};
    sam_splice splice = {.count = 9};
    sam_event event = {.kind = SAM_EVENT_FLUSH};
    sam_client_event told = SAM_CLIENT_NOTE;
    sam_changes changes = {.got = 5, .used = 6};
    uint64_t number = 4;
    size_t len = 7;
    bool is = true;
    WANT(sam_client_next_event(none, 0, &told, &did), SAM_NO_HANDLE);
    WANT(sam_client_next_splice(none, &splice), SAM_NO_HANDLE);
    WANT(sam_client_step_edits(none, 0, &changes, &told, &did), SAM_NO_HANDLE);
    WANT(sam_client_replace(none, 0, 0, 0, BYTES("\xFF")), SAM_NO_HANDLE);
    WANT(sam_client_replace_each(none, 0, NULL, 0, BYTES("\xFF"), &len), SAM_NO_HANDLE);
    WANT(sam_client_ask(none, &event, BYTES("\xFF"), &number), SAM_NO_HANDLE);
    WANT(sam_client_drop_next(none, 0, &splice, bytes, sizeof bytes, &len), SAM_NO_HANDLE);
    WANT(sam_client_has_all(none, &is), SAM_NO_HANDLE);
    WANT(sam_client_requests(none, &len), SAM_NO_HANDLE);
    WANT(sam_client_is_unsaved(none, 0, &is), SAM_NO_HANDLE);
    WANT(memcmp(bytes, "unused", 7) == 0 && len == 7 && is && number == 4, 1);
    WANT(changes.got == 5 && changes.used == 6, 1);
    WANT(did.event == 8 && splice.count == 9 && told == SAM_CLIENT_NOTE, 1);
}

static void no_handle_for_readers(sam_client *none)
{
    uint8_t bytes[ROOM] = "unused";
    uint32_t runes[2] = {1, 2}, count = 3, more = 4;
    uint64_t number = 5;
    uint16_t tag = 6;
    size_t len = 7;
    sam_state state = {.events = 10};
    sam_file file = {.len = 11};
    WANT(sam_client_state(none, &state), SAM_NO_HANDLE);
    WANT(sam_client_file(none, 0, &file), SAM_NO_HANDLE);
    WANT(sam_client_name(none, 0, bytes, sizeof bytes, &len), SAM_NO_HANDLE);
    WANT(sam_client_current(none, &tag), SAM_NO_HANDLE);
    WANT(sam_client_pattern(none, bytes, sizeof bytes, &len), SAM_NO_HANDLE);
    WANT(sam_client_snarfed(none, 0, bytes, sizeof bytes, &len, &more), SAM_NO_HANDLE);
    WANT(sam_client_fault_place(none, &number), SAM_NO_HANDLE);
    WANT(sam_client_waiting(none, 0, &count), SAM_NO_HANDLE);
    WANT(sam_client_next_waiting(none, 0, &tag), SAM_NO_HANDLE);
    WANT(sam_client_first_gap(none, 0, 0, &count), SAM_NO_HANDLE);
    WANT(sam_client_len(none, 0, &count), SAM_NO_HANDLE);
    WANT(sam_client_read(none, 0, 0, runes, 2, &count), SAM_NO_HANDLE);
    WANT(sam_client_text(none, 0, 0, bytes, sizeof bytes, &len, &more), SAM_NO_HANDLE);
    WANT(memcmp(bytes, "unused", 7) == 0 && runes[0] == 1 && count == 3 && more == 4 && number == 5 && tag == 6 && len == 7, 1);
    WANT(state.events == 10 && file.len == 11, 1);
}

static void no_handles(sam_client *none)
{
    no_handle_for_the_line(none);
    no_handle_for_the_user(none);
    no_handle_for_readers(none);
}

/* ---- The line alone ---- */

static uint32_t tick_at(uint64_t time)
{
    uint32_t tick = 9;
    now = time;
    WANT(READ(sam_client_tick(&client, now, &tick)), SAM_OK);
    return tick;
}

static uint64_t due_in(void)
{
    uint64_t left = 9;
    sam_status status = READ(sam_client_due_in(&client, now, &left));
    return status == SAM_NONE ? UINT64_MAX : left;
}

/* Another connection is open, and its hello has gone out. */
static uint64_t call(void)
{
    uint8_t hello[SAM_LINK_HELLO_BYTES];
    uint64_t number = 0;
    size_t count = 0;
    WANT(READ(sam_client_connected(&client, now, &number)), SAM_OK);
    WANT(READ(sam_client_take_out(&client, number, hello, sizeof hello, &count)), SAM_OK);
    WANT(count, sizeof hello);
    return number;
}

/* What goes out is the hello of LINK.md, and then a note; words of a login, the welcome, and a note that is empty or not come in. */
static void bytes_go(void)
{
    static const char out[] = HELLO("\3", "\1", "\0") NOTE "\0\4note";
    static const char in[] = WORDS HELLO("\4", "\1", "\0") NOTE "\0\2ok" NOTE "\0\0";
    uint8_t bytes[SAM_LINK_MOST_NOTE] = "unused";
    uint64_t number = 0;
    size_t count = 9;
    bool has = true;
    begin_client(true);
    WANT(READ(sam_client_has_all(&client, &has)), SAM_OK);
    WANT(has, true);
    WANT(READ(sam_client_note(&client, bytes, 0, &count)), SAM_OK);
    WANT(count, 0);
    WANT(sam_client_put_note(&client, bytes, SAM_LINK_MOST_NOTE + 1, now), SAM_LINK_TOO_LONG);
    WANT(sam_client_put_note(&client, BYTES("note"), now), SAM_OK);
    WANT(READ(sam_client_has_all(&client, &has)), SAM_OK);
    WANT(has, false);
    WANT(tick_at(1000), SAM_TICK_CONNECT);
    WANT(READ(sam_client_connected(&client, now, &number)), SAM_OK);
    WANT(READ(sam_client_take_out(&client, 2, bytes, sizeof bytes, &count)), SAM_LINK_NOT_OPEN);
    WANT(READ(sam_client_take_out(&client, number, bytes, sizeof bytes, &count)), SAM_OK);
    WANT(count == sizeof out - 1 && memcmp(bytes, out, count) == 0, 1);
    WANT(sam_client_receive(&client, 2, BYTES(in), now), SAM_LINK_NOT_OPEN);
    for (size_t at = 0; at < sizeof in - 1; at++)
        WANT(sam_client_receive(&client, number, (const uint8_t *)in + at, 1, now), SAM_OK);
    WANT(READ(sam_client_words(&client, bytes, sizeof bytes, &count)), SAM_OK);
    WANT(count == sizeof WORDS - 1 && memcmp(bytes, WORDS, count) == 0, 1);
    WANT(next_event(), SAM_CLIENT_NOTE);
    WANT(READ(sam_client_note(&client, bytes, 1, &count)), SAM_NO_ROOM);
    WANT(count, sizeof WORDS - 1);
    WANT(READ(sam_client_note(&client, bytes, 2, &count)), SAM_OK);
    WANT(count == 2 && memcmp(bytes, "ok", 2) == 0, 1);
    WANT(next_event(), SAM_CLIENT_NOTE);
    WANT(READ(sam_client_note(&client, bytes, 0, &count)), SAM_OK);
    WANT(count, 0);
    WANT(next_event(), SAM_CLIENT_IDLE);
    WANT(details_of().state == SAM_LINE_OPEN && details_of().is_known && details_of().attempt == 1 && details_of().received == 8, 1);
    WANT(sam_client_acknowledge(&client), SAM_OK);
    WANT(READ(sam_client_take_out(&client, 1, bytes, sizeof bytes, &count)), SAM_OK);
    WANT(count > ANSWER && memcmp(bytes, ASK "\0\0" ACKNOWLEDGEMENT "\0\x08" EIGHT("\x08"), count) == 0, 1);
    end_client();
}

/* Connections that can't be made, that break or that fall silent. */
static void times(void)
{
    begin_client(false);
    WANT(due_in(), 0);
    WANT(tick_at(1000), SAM_TICK_CONNECT);
    WANT(tick_at(1000), SAM_TICK_NOTHING);
    WANT(due_in(), 30000);
    WANT(READ(sam_client_not_connected(&client, now)), SAM_OK);
    WANT(details_of().failures, 1);
    WANT(tick_at(1000), SAM_TICK_CONNECT);
    WANT(READ(sam_client_not_connected(&client, now)), SAM_OK);
    WANT(due_in(), 1000);
    WANT(tick_at(2000), SAM_TICK_CONNECT);
    WANT(sam_client_receive(&client, call(), BYTES(HELLO("\4", "\1", "\0")), now), SAM_OK);
    WANT(due_in(), UINT64_MAX);
    WANT(READ(sam_client_expect(&client, true, now)), SAM_OK);
    WANT(due_in(), 15000);
    WANT(READ(sam_client_expect(&client, false, now)), SAM_OK);
    WANT(due_in(), UINT64_MAX);
    WANT(READ(sam_client_broken(&client, 2, now)), SAM_OK);
    WANT(details_of().state, SAM_LINE_OPEN);
    WANT(READ(sam_client_address_changed(&client, now)), SAM_OK);
    WANT(details_of().state == SAM_LINE_LATE && due_in() == 2000, 1);
    WANT(READ(sam_client_broken(&client, 1, now)), SAM_OK);
    WANT(details_of().state, SAM_LINE_DOWN);
    end_client();
}

/* What ends a connection alone, each on a client of its own; and a refusal that ends them all. */
static void wrong(void)
{
    static const struct {
        const char *bytes;
        size_t len;
        sam_status status;
    } pieces[] = {
        {MARK "\5", 10, SAM_LINK_WRONG_HELLO},
        {HELLO("\x11", "\1", "\0"), 42, SAM_LINK_NOT_A_LINK},
        {HELLO("\x13", "\1", "\0"), 42, SAM_LINK_BAD_HELLO},
        {HELLO("\x16", "\1", "\0"), 42, SAM_LINK_OLD_ATTEMPT},
        {HELLO("\4", "\1", "\0") "\5", 43, SAM_LINK_BAD_KIND},
        {HELLO("\4", "\1", "\0") DATA "\0\0", 45, SAM_LINK_BAD_LENGTH},
        {HELLO("\4", "\1", "\0") ACKNOWLEDGEMENT "\0\x08" EIGHT("\1"), 53, SAM_LINK_ACK_AHEAD},
    };
    for (size_t i = 0; i < sizeof pieces / sizeof pieces[0]; i++) {
        begin_client(false);
        call();
        WANT(sam_client_receive(&client, 1, (const uint8_t *)pieces[i].bytes, pieces[i].len, now), pieces[i].status);
        WANT(sam_client_receive(&client, 1, (const uint8_t *)pieces[i].bytes, pieces[i].len, now), SAM_LINK_NOT_OPEN);
        WANT(details_of().state, SAM_LINE_DOWN);
        end_client();
    }
    begin_client(false);
    call();
    WANT(sam_client_receive(&client, 1, BYTES(HELLO("\x15", "\1", "\0")), now), SAM_LINK_OTHER_SESSION);
    WANT(details_of().state == SAM_LINE_LOST && details_of().why == SAM_LINK_OTHER_SESSION, 1);
    WANT(due_in(), UINT64_MAX);
    end_client();
}

/* What a host may send without end is bounded: words before its hello, and questions. */
static void bounds(void)
{
    static uint8_t words[MOST_WORDS];
    begin_client(false);
    uint64_t number = call();
    WANT(sam_client_receive(&client, number, words, sizeof words, now), SAM_OK);
    WANT(sam_client_receive(&client, number, words, 1, now), SAM_LINK_TOO_MANY_WORDS);
    number = call();
    WANT(sam_client_receive(&client, number, BYTES(HELLO("\4", "\2", "\0")), now), SAM_OK);
    for (unsigned kept = 0; kept < MOST_ANSWERS; kept += ANSWER)
        WANT(sam_client_receive(&client, number, BYTES(ASK "\0\0"), now), SAM_OK);
    WANT(sam_client_receive(&client, number, BYTES(ASK "\0\0"), now), SAM_LINK_TOO_MANY_ANSWERS);
    end_client();
}

int main(void)
{
    sam_client empty = SAM_CLIENT_INIT;
    no_handles(NULL);
    WANT(sam_client_new(NULL, id, false, 0), SAM_NO_HANDLE);
    no_handles(&empty);
    bytes_go();
    times();
    wrong();
    bounds();
    WANT((unsigned long)blocks, 0);
    puts("the line of a client is right");
    return 0;
}
