/*
 * tasks: what a client asks of its host's program, and what it loads by itself. Each task is told once: by its answer, by the refusal of its
 * write, or by the end of the session. The bytes stand in docs/reference/LINK.md and docs/reference/SESSION.md, what is shown is worked out
 * by hand. It ends with status 0, or 1 and the line that failed.
 */
#include "reading.h"

#include "fronting.h"
#include "link_bytes.h"

enum { ROOM = 64, GAP_SIGN = '_', MOST_TASKS = 1000, LONGEST_PATH = SAM_LINK_MOST_NOTE - 7, ANSWER_IN = 15000, REST = 1000, BREAK = 50 };

/* A host with the file `a` of this text, and a client that has opened it, and loaded nothing of it. */
static void open_both(const char *text)
{
    uint16_t tag = 0;
    now = 1000;
    attempt = newest_request = told_request = refused = 0;
    copy.len = 0;
    WANT(sam_host_new(&host), SAM_OK);
    WANT(sam_link_new(&host_end, SAM_LINK_HOST, id), SAM_OK);
    WANT(sam_host_add_file(&host, BYTES("a"), (const uint8_t *)text, strlen(text), &tag), SAM_OK);
    WANT(sam_client_new(&client, id, false, now), SAM_OK);
    connect();
    WANT(ask_for(SAM_EVENT_OFFER_VERSION, 0, 0, 0), SAM_OK);
    settle();
    WANT(ask_for(SAM_EVENT_OPEN, 1, 0, 0), SAM_OK);
    settle();
}

static void free_both(void)
{
    WANT(sam_host_free(&host), SAM_OK);
    WANT(sam_link_free(&host_end), SAM_OK);
    WANT(sam_client_free(&client), SAM_OK);
}

static uint64_t due_in(void)
{
    uint64_t left = 9;
    sam_status status = READ(sam_client_due_in(&client, now, &left));
    return status == SAM_NONE ? UINT64_MAX : left;
}

/* ---- Tasks ---- */

/* A task is begun, and has this number; or none is, and no number is handed out. */
static void begin(uint32_t kind, uint16_t tag, const char *path, size_t len, sam_status status, uint32_t number)
{
    uint32_t task = 77;
    WANT(sam_client_begin(&client, kind, tag, (const uint8_t *)path, len, now, &task), status);
    WANT(task, status == SAM_OK ? number : 77);
}

/* A write is asked for, whose task has this number. */
static void write_file(uint16_t tag, sam_status status, uint32_t number)
{
    uint32_t task = 77;
    WANT(sam_client_write(&client, tag, &task), status);
    WANT(task, status == SAM_OK ? number : 77);
}

/* What comes out of the client has these bytes at its end, and the host's end of the link gets it. */
static void goes_out(const char *bytes, size_t len)
{
    uint8_t piece[SAM_LINK_MOST_NOTE];
    size_t count = 0;
    WANT(sam_client_take_out(&client, attempt, piece, sizeof piece, &count), SAM_OK);
    WANT(count >= len && memcmp(piece + count - len, bytes, len) == 0, 1);
    WANT(sam_link_feed(&host_end, attempt, piece, count), SAM_OK);
    host_turn();
}

/* The client gets a message of the host's program, and doesn't go on. */
static void host_says(enum sam_note_kind kind, uint32_t request)
{
    sam_note note = {.kind = (uint8_t)kind, .request = request};
    uint8_t bytes[ROOM], piece[SAM_LINK_MOST_NOTE];
    size_t len = 0, count = 0;
    WANT(sam_note_write(&note, NULL, NULL, NULL, bytes, sizeof bytes, &len), SAM_OK);
    WANT(sam_link_put_note(&host_end, bytes, len), SAM_OK);
    WANT(sam_link_take_out(&host_end, attempt, piece, sizeof piece, &count), SAM_OK);
    WANT(sam_client_receive(&client, attempt, piece, count, now), SAM_OK);
}

/* The next thing that is told is this, with the number of this task and nothing else. */
static void tells(sam_client_event wanted, uint32_t task)
{
    sam_client_event told = SAM_CLIENT_WIDTH;
    sam_did did = {.event = 8};
    WANT(sam_client_next_event(&client, now, &told, &did), SAM_OK);
    WANT(told, wanted);
    WANT(did.task, task);
    WANT(did.event == 0 && did.request == 0 && did.count == 0 && did.step == SAM_STEP_IDLE && did.why == SAM_OK, 1);
}

/* The client's note is a message of this kind, with the number of this request. */
static void has_note(enum sam_note_kind kind, uint32_t request)
{
    uint8_t bytes[ROOM];
    size_t len = 0;
    sam_note note;
    WANT(READ(sam_client_note(&client, bytes, sizeof bytes, &len)), SAM_OK);
    WANT(sam_note_read(bytes, len, &note), SAM_OK);
    WANT(note.kind, kind);
    WANT(note.request, request);
}

/* The messages that go out, and their answers in another order. What answers no task is a note. While a task is open, an answer is due. */
static void answered(void)
{
    open_both("hello");
    WANT(due_in(), UINT64_MAX);
    begin(SAM_NOTE_OPEN, 0, "/tmp/a", 6, SAM_OK, 1);
    goes_out(NOTE "\0\x0D\1\0\0\0\1\0\6/tmp/a", 16);
    begin(SAM_NOTE_COMPLETE, 0, "/tm", 3, SAM_OK, 2);
    goes_out(NOTE "\0\x0A\2\0\0\0\2\0\3/tm", 13);
    begin(SAM_NOTE_RELOAD, 0x102, NULL, 0, SAM_OK, 3);
    goes_out(NOTE "\0\7\3\0\0\0\3\1\2", 10);
    settle();
    WANT(due_in(), ANSWER_IN);
    host_says(SAM_NOTE_NAMES, 2);
    tells(SAM_CLIENT_ANSWERED, 2);
    has_note(SAM_NOTE_NAMES, 2);
    host_says(SAM_NOTE_NAMES, 2);
    tells(SAM_CLIENT_NOTE, 0);
    host_says(SAM_NOTE_OPENED, 9);
    tells(SAM_CLIENT_NOTE, 0);
    host_says(SAM_NOTE_SHOWN, 0);
    tells(SAM_CLIENT_NOTE, 0);
    host_says(SAM_NOTE_OPENED, 1);
    tells(SAM_CLIENT_ANSWERED, 1);
    settle();
    WANT(due_in(), ANSWER_IN);
    host_says(SAM_NOTE_REFUSED, 3);
    tells(SAM_CLIENT_ANSWERED, 3);
    has_note(SAM_NOTE_REFUSED, 3);
    settle();
    WANT(due_in(), UINT64_MAX);
    free_both();
}

/* A message that was on its way as the connection broke comes over the next one, once. */
static void over_a_break(void)
{
    open_both("hello");
    unsigned long before = notes_up;
    begin(SAM_NOTE_OPEN, 0, "a", 1, SAM_OK, 1);
    cut(ROOM, 0);
    WANT(notes_up, before);
    connect();
    settle();
    WANT(notes_up, before + 1);
    host_says(SAM_NOTE_OPENED, 1);
    tells(SAM_CLIENT_ANSWERED, 1);
    free_both();
}

/* A write has a task. The message of it goes out in front of the write; one that would find the same text is the same task. */
static void written(void)
{
    static const uint32_t mark = '!';
    uint8_t bytes[ROOM];
    size_t len = 0;
    uint32_t runes = 0;
    open_both("hello");
    WANT(ask_for(SAM_EVENT_LOAD, 1, 0, 5), SAM_OK);
    settle();
    type(5, 0, "!", &mark, 1);
    unsigned long before = notes_up;
    write_file(1, SAM_OK, 1);
    newest_request++;
    write_file(1, SAM_OK, 1);
    go_on();
    uint8_t piece[SAM_LINK_MOST_NOTE];
    size_t count = 0, at = 0;
    WANT(sam_client_take_out(&client, attempt, piece, sizeof piece, &count), SAM_OK);
    while (at + 10 < count && memcmp(piece + at, NOTE "\0\7\5\0\0\0\1\0\1", 10) != 0)
        at++;
    WANT(at + 10 < count, 1); /* the write stands behind it */
    WANT(sam_link_feed(&host_end, attempt, piece, at + 10), SAM_OK);
    host_turn();
    WANT(notes_up, before + 1);
    WANT(sam_host_saved(&host, 1, 0, bytes, sizeof bytes, &len, &runes), SAM_NONE);
    WANT(sam_link_feed(&host_end, attempt, piece + at + 10, count - at - 10), SAM_OK);
    host_turn();
    WANT(sam_host_saved(&host, 1, 0, bytes, sizeof bytes, &len, &runes), SAM_OK);
    WANT(len == 6 && memcmp(bytes, "hello!", 6) == 0, 1);
    settle();
    WANT(notes_up, before + 1);
    host_says(SAM_NOTE_SAVED, 1);
    tells(SAM_CLIENT_ANSWERED, 1);
    has_note(SAM_NOTE_SAVED, 1);
    free_both();
}

/* The terminal refuses a write: its task ends so, and a request that was refused before has none. */
static void refused_write(void)
{
    sam_client_event told = SAM_CLIENT_WIDTH;
    sam_did did;
    open_both("hello");
    WANT(ask_for(SAM_EVENT_WRITE, 9, 0, 0), SAM_OK);
    go_on();
    write_file(9, SAM_OK, 1);
    for (int i = 0; i < 2; i++) {
        do
            WANT(sam_client_next_event(&client, now, &told, &did), SAM_OK);
        while (told == SAM_CLIENT_BUSY);
        if (i == 0) {
            WANT(told, SAM_CLIENT_REFUSED);
            WANT(did.task == 1 && did.request == newest_request + 1 && did.why == SAM_REFUSAL_NO_FILE, 1);
        }
    }
    WANT(told, SAM_CLIENT_IDLE);
    settle();
    WANT(due_in(), UINT64_MAX);
    free_both();
}

/* Whether no connection comes any more. */
static bool is_lost(void)
{
    sam_line_details line;
    WANT(READ(sam_client_describe(&client, now, &line)), SAM_OK);
    return line.state == SAM_LINE_LOST;
}

/* The client connects, and the host knows no such session: it may come back for a minute. */
static void finds_no_session(void)
{
    while (!wants_connection())
        now += PAUSE;
    WANT(READ(sam_client_connected(&client, now, &attempt)), SAM_OK);
    WANT(sam_client_receive(&client, attempt, BYTES(HELLO("\x14", "\1", "\0")), now), SAM_LINK_NO_SESSION);
}

/* The session ends, or is lost: the tasks that are open end, the oldest first. */
static void unanswered(void)
{
    open_both("hello");
    begin(SAM_NOTE_RELOAD, 1, NULL, 0, SAM_OK, 1);
    begin(SAM_NOTE_OPEN, 0, "b", 1, SAM_OK, 2);
    settle();
    host_says(SAM_NOTE_ENDED, 0);
    tells(SAM_CLIENT_NOTE, 0);
    has_note(SAM_NOTE_ENDED, 0);
    tells(SAM_CLIENT_UNANSWERED, 1);
    tells(SAM_CLIENT_UNANSWERED, 2);
    tells(SAM_CLIENT_IDLE, 0);
    free_both();

    open_both("hello");
    begin(SAM_NOTE_OPEN, 0, "b", 1, SAM_OK, 1);
    cut(0, 0);
    begin(SAM_NOTE_OPEN, 0, "c", 1, SAM_OK, 2);
    go_on();
    while (!is_lost())
        finds_no_session();
    tells(SAM_CLIENT_UNANSWERED, 1);
    tells(SAM_CLIENT_UNANSWERED, 2);
    tells(SAM_CLIENT_IDLE, 0);
    free_both();
}

/* Each refusal, in their order: no task is begun, and the next one has the next number. */
static void refusals(void)
{
    static char path[LONGEST_PATH + 1];
    open_both("hello");
    memset(path, 'p', sizeof path);
    begin(SAM_NOTE_OPEN, 1, "a", 1, SAM_NOTE_BAD_FIELD, 0);
    begin(SAM_NOTE_COMPLETE, 1, "\0", 1, SAM_NOTE_BAD_FIELD, 0);
    begin(SAM_NOTE_RELOAD, 1, path, sizeof path, SAM_NOTE_BAD_FIELD, 0);
    path[0] = '\0';
    begin(SAM_NOTE_OPEN, 0, path, sizeof path, SAM_NOTE_BAD_LENGTH, 0);
    begin(SAM_NOTE_OPEN, 0, path, sizeof path - 1, SAM_NOTE_BAD_PATH, 0);
    path[0] = 'p';
    begin(SAM_NOTE_OPEN, 0, path, sizeof path - 1, SAM_OK, 1);
    while (ask_for(SAM_EVENT_SEARCH, 1, 0, 0) == SAM_OK)
        ;
    write_file(1, SAM_TOO_MANY, 0); /* 1,000 requests wait */
    go_on();
    for (uint32_t number = 2; number <= MOST_TASKS; number++)
        begin(SAM_NOTE_RELOAD, 1, NULL, 0, SAM_OK, number);
    begin(SAM_NOTE_OPEN, 1, "a", 1, SAM_TOO_MANY, 0);
    write_file(1, SAM_TOO_MANY, 0);
    static const uint32_t others[] = {0, 4, SAM_NOTE_WRITE, SAM_NOTE_OPENED, 0x100 + SAM_NOTE_OPEN, UINT32_MAX};
    for (size_t i = 0; i < sizeof others / sizeof others[0]; i++)
        begin(others[i], 1, "a", 1, SAM_NOTE_BAD_KIND, 0);
    settle();
    host_says(SAM_NOTE_OPENED, 1);
    tells(SAM_CLIENT_ANSWERED, 1);
    begin(SAM_NOTE_OPEN, 0, "a", 1, SAM_OK, MOST_TASKS + 1);
    free_both();
}

/* ---- What is loaded ---- */

/* What is shown of the file is this text, `_` for each gap. */
static void shows(const char *text)
{
    uint32_t runes[ROOM], count = 0;
    WANT(READ(sam_client_read(&client, 1, 0, runes, ROOM, &count)), SAM_OK);
    WANT(count, strlen(text));
    for (uint32_t i = 0; i < count; i++)
        WANT(runes[i], text[i] == GAP_SIGN ? SAM_GAP : (uint32_t)text[i]);
}

/* What the client has asked for comes. */
static void comes(void)
{
    go_on();
    while (carry_up(SAM_LINK_MOST_NOTE))
        ;
    uint8_t piece[SAM_LINK_MOST_NOTE];
    size_t count = 0;
    WANT(sam_link_take_out(&host_end, attempt, piece, sizeof piece, &count), SAM_OK);
    WANT(sam_client_receive(&client, attempt, piece, count, now), SAM_OK);
    go_on();
}

/* A file that a window shows is loaded, first what it shows; one that none shows is not. */
static void windows(void)
{
    open_both("hello world");
    newest_request = UINT64_MAX; /* the client asks by itself, too */
    shows("___________");
    WANT(sam_client_forget(&client, 1), SAM_OK);
    settle();
    shows("___________");
    WANT(sam_client_see(&client, 1, 6, 8), SAM_OK);
    comes();
    shows("______wo___");
    WANT(sam_client_forget(&client, 1), SAM_OK);
    settle();
    WANT(sam_client_see(&client, 9, 0, 5), SAM_OK); /* no such file */
    WANT(sam_client_see(&client, 1, 0, UINT32_MAX), SAM_OK);
    settle();
    shows("hello world");
    WANT(due_in(), UINT64_MAX);
    free_both();
}

/* While the user types, only that is loaded which a window shows; the rest once he has paused. */
static void rests(void)
{
    static const uint32_t letter = 'J';
    open_both("hello world");
    newest_request = UINT64_MAX;
    WANT(sam_client_see(&client, 1, 6, 8), SAM_OK);
    type(0, 0, "J", &letter, 1);
    settle();
    shows("J_____ w____");
    WANT(due_in(), REST);
    now += REST - 1;
    settle();
    WANT(due_in(), 1);
    WANT(READ(sam_client_rest(&client, now)), SAM_OK); /* another key */
    settle();
    WANT(due_in(), REST);
    now += REST;
    settle();
    shows("J_____ world");
    WANT(due_in(), BREAK);
    now += BREAK;
    settle();
    shows("Jhello world");
    same_text(&host, 1, "Jhello world");
    free_both();
}

static void no_handles(sam_client *none)
{
    uint32_t task = 77;
    WANT(sam_client_begin(none, 0, 1, BYTES("a"), 0, &task), SAM_NO_HANDLE);
    WANT(sam_client_write(none, 1, &task), SAM_NO_HANDLE);
    WANT(sam_client_see(none, 1, 0, 5), SAM_NO_HANDLE);
    WANT(sam_client_forget(none, 1), SAM_NO_HANDLE);
    WANT(sam_client_rest(none, 0), SAM_NO_HANDLE);
    WANT(task, 77);
}

int main(void)
{
    sam_client empty = SAM_CLIENT_INIT;
    no_handles(NULL);
    no_handles(&empty);
    answered();
    over_a_break();
    written();
    refused_write();
    unanswered();
    refusals();
    windows();
    rests();
    WANT((unsigned long)blocks, 0);
    puts("each task is told once, and what windows show is loaded");
    return 0;
}
