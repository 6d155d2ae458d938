/*
 * crashes [STEP]: a durable server and a terminal's end of a link in one process, joined by bytes that are cut into pieces. The server
 * crashes after this step, or in one session after the other after each step: it is thrown away, with all records that were not durable,
 * and another is made of those that were. The terminal connects again, knows nothing of the crash, and all ends as in the session without
 * one. A call that wants memory is made again, so the program prints the same whichever request for memory was refused. It ends with status
 * 0, or 1 and the line that failed.
 */
#include "link_bytes.h"
#include "wanting.h"

enum { MOST_RECORDS = 512, MOST_BODY = 64, PIECE = 7, NEVER = 0 };

static sam_server server;
static sam_term term;
static sam_link end; /* the terminal's */
static uint64_t attempt;

/* The records that the program got, of which the first `durable` survive a crash. */
static struct {
    uint8_t body[MOST_BODY];
    size_t len;
} journal[MOST_RECORDS];
static size_t written, durable;

/* The session of a terminal that takes over. */
static const uint8_t *const other_id = (const uint8_t *)"another sessions";

/* What came of the host's hello on the newest connection. */
static uint8_t welcome[SAM_LINK_HELLO_BYTES];
static size_t welcome_len;

/* What the program did for the server, and heard at the terminal. */
static char disk[32];
static unsigned writes, heard, told;

/* The call is made until memory for it was there. */
#define DONE(call)                                                                                                                         \
    do {                                                                                                                                   \
        sam_status came;                                                                                                                   \
        while ((came = (call)) == SAM_NO_MEMORY)                                                                                           \
            ;                                                                                                                              \
        want(#call, __LINE__, came, SAM_OK);                                                                                               \
    } while (0)

/* The same of a call that the server takes: meanwhile nothing goes out, and nothing else is taken. */
static void goes_on(const char *what, int line, sam_status status)
{
    size_t len = 0, count = 9;
    uint8_t bytes[PIECE];
    sam_server heir = SAM_SERVER_INIT;
    sam_status first = sam_server_record_len(&server, &len);
    while (status == SAM_UNFINISHED) {
        WANT(sam_server_ask(&server), SAM_WAITING);
        WANT(sam_server_heir(&server, other_id, &heir), SAM_WAITING);
        if (sam_server_take_out(&server, attempt, bytes, sizeof bytes, &count) == SAM_OK)
            WANT(count, 0);
        WANT(sam_server_record_len(&server, &len), first);
        status = sam_server_go_on(&server);
    }
    want(what, line, status, SAM_OK);
}
#define TAKES(call)                                                                                                                        \
    do {                                                                                                                                   \
        sam_status came;                                                                                                                   \
        while ((came = (call)) == SAM_NO_MEMORY)                                                                                           \
            ;                                                                                                                              \
        goes_on(#call, __LINE__, came);                                                                                                    \
    } while (0)

/* ---- The terminal ---- */

/* Ends what a call of the terminal left waiting. */
static void settle(const char *what, int line, sam_status status)
{
    while (status == SAM_UNFINISHED || status == SAM_NO_MEMORY)
        status = sam_term_feed(&term, NULL, 0);
    want(what, line, status, SAM_OK);
}
#define EVENT(call)                                                                                                                        \
    do {                                                                                                                                   \
        sam_status came;                                                                                                                   \
        while ((came = (call)) == SAM_NO_MEMORY)                                                                                           \
            ;                                                                                                                              \
        settle(#call, __LINE__, came);                                                                                                     \
    } while (0)

static void term_takes(void)
{
    uint8_t bytes[64], note[SAM_LINK_MOST_NOTE];
    size_t count = 1;
    while (count > 0) {
        WANT(sam_link_take_in(&end, bytes, sizeof bytes, &count), SAM_OK);
        if (count > 0)
            EVENT(sam_term_feed(&term, bytes, count));
    }
    if (sam_link_next_note(&end, note, sizeof note, &count) != SAM_OK)
        return;
    WANT(count == 2 && memcmp(note, "hi", 2) == 0, 1);
    told++;
    term_takes();
}

static void calls(void)
{
    uint8_t hello[SAM_LINK_HELLO_BYTES];
    size_t count = 0;
    WANT(sam_link_call(&end, false, &attempt), SAM_OK);
    WANT(sam_link_take_out(&end, attempt, hello, sizeof hello, &count), SAM_OK);
    WANT(count, sizeof hello);
    TAKES(sam_server_accept(&server, hello, sizeof hello));
    welcome_len = 0;
}

/* ---- The steps: each says whether it did anything ---- */

static bool goes_up(void)
{
    uint8_t piece[PIECE];
    size_t count = 0, out = 0;
    WANT(sam_term_take_out(&term, piece, sizeof piece, &count), SAM_OK);
    if (count > 0)
        DONE(sam_link_put(&end, piece, count));
    WANT(sam_link_take_out(&end, attempt, piece, sizeof piece, &out), SAM_OK);
    if (out > 0)
        TAKES(sam_server_receive(&server, attempt, piece, out));
    return count > 0 || out > 0;
}

static bool is_recorded(void)
{
    size_t len = 0;
    if (sam_server_record_len(&server, &len) != SAM_OK)
        return false;
    WANT(written < MOST_RECORDS && len <= MOST_BODY, 1);
    WANT(sam_server_next_record(&server, journal[written].body, len, &journal[written].len), SAM_OK);
    WANT(journal[written].len, len);
    written++;
    return true;
}

static bool is_durable(void)
{
    if (durable == written)
        return false;
    WANT(sam_server_durable(&server, written - durable), SAM_OK);
    durable = written;
    return true;
}

static bool comes_down(void)
{
    uint8_t piece[PIECE];
    size_t count = 0, front;
    WANT(sam_server_take_out(&server, attempt, piece, sizeof piece, &count), SAM_OK);
    if (count == 0)
        return false;
    front = count < sizeof welcome - welcome_len ? count : sizeof welcome - welcome_len;
    memcpy(welcome + welcome_len, piece, front);
    welcome_len += front;
    if (front > 0 && welcome_len == sizeof welcome)
        WANT(sam_link_welcomed(&end, welcome, sizeof welcome), SAM_OK);
    if (front < count) {
        DONE(sam_link_feed(&end, attempt, piece + front, count - front));
        term_takes();
    }
    return true;
}

static bool has_effect(void)
{
    uint8_t bytes[32];
    size_t len = 0;
    uint32_t runes;
    sam_effect effect;
    if (sam_server_next_effect(&server, &effect) != SAM_OK)
        return false;
    if (effect.kind == SAM_EFFECT_WRITE) {
        WANT(sam_server_saved(&server, effect.tag, 0, bytes, sizeof bytes, &len, &runes), SAM_OK);
        memcpy(disk, bytes, len);
        disk[len] = '\0';
        writes++;
    } else {
        WANT(sam_server_heard(&server, bytes, effect.len, &len), SAM_OK);
        WANT(len == 4 && memcmp(bytes, "note", 4) == 0, 1);
        heard++;
    }
    TAKES(sam_server_effect_done(&server, 0));
    return true;
}

/* Records lag behind what is taken, and what is durable behind the records. */
static bool (*const steps[])(void) = {goes_up, goes_up, is_recorded, comes_down, goes_up, is_recorded, is_durable, has_effect, comes_down};

/* ---- A crash ---- */

static sam_status is_made_again(void)
{
    sam_recovery recovery = {0};
    sam_status status;
    DONE(sam_recovery_new(&recovery, id));
    for (size_t i = 0; i < durable; i++) {
        status = sam_recovery_take(&recovery, journal[i].body, journal[i].len);
        if (status != SAM_OK) {
            WANT(sam_recovery_free(&recovery), SAM_NO_HANDLE);
            return status;
        }
    }
    DONE(sam_recovery_finish(&recovery, &server));
    WANT(sam_recovery_free(&recovery), SAM_NO_HANDLE);
    return SAM_OK;
}

static void crash(void)
{
    WANT(sam_server_free(&server), SAM_OK);
    written = durable;
    DONE(is_made_again());
    WANT(sam_link_broken(&end, attempt), SAM_OK);
    calls();
}

/* ---- A session ---- */

static void begin(void)
{
    uint16_t tag = 0;
    written = durable = 0;
    writes = heard = told = 0;
    disk[0] = '\0';
    DONE(sam_server_new(&server, id));
    TAKES(sam_server_add_file(&server, BYTES("notes"), BYTES("\xC3\xA4\n"), &tag));
    TAKES(sam_server_say(&server, BYTES("hi")));
    while (is_recorded())
        ;
    is_durable();
    DONE(sam_term_new(&term));
    DONE(sam_link_new(&end, SAM_LINK_TERMINAL, id));
    calls();
    DONE(sam_link_put_note(&end, BYTES("note")));
    EVENT(sam_term_offer_version(&term, 2));
    EVENT(sam_term_open(&term, 1));
    EVENT(sam_term_view(&term, 1, 0, 80)); /* loads what the window shows */
    EVENT(sam_term_type(&term, 1, BYTES("ab")));
    EVENT(sam_term_write(&term, 1));
    EVENT(sam_term_type(&term, 1, BYTES("c")));
}

static void same(sam_status status, const uint8_t *bytes, size_t len)
{
    WANT(status, SAM_OK);
    WANT(len == 6 && memcmp(bytes, "abc\xC3\xA4\n", 6) == 0, 1);
}

static void ends_well(bool crashed)
{
    sam_server heir = SAM_SERVER_INIT;
    uint8_t bytes[32];
    size_t len = 0;
    uint32_t runes = 0;
    bool is_dirty = false;
    sam_status status = sam_server_text(&server, 1, 0, bytes, sizeof bytes, &len, &runes);
    same(status, bytes, len);
    status = sam_term_text(&term, 1, 0, bytes, sizeof bytes, &len, &runes);
    same(status, bytes, len);
    WANT(strcmp(disk, "ab\xC3\xA4\n"), 0);
    WANT(sam_server_is_dirty(&server, 1, &is_dirty), SAM_OK);
    WANT(is_dirty, 1);
    WANT(told, 1);
    WANT(writes == 1 || (crashed && writes == 2), 1); /* once more, if the crash forgot that it was done */
    WANT(heard == 1 || (crashed && heard == 2), 1);
    DONE(sam_server_heir(&server, other_id, &heir));
    WANT(sam_server_free(&server), SAM_OK);
    status = sam_server_text(&heir, 1, 0, bytes, sizeof bytes, &len, &runes);
    same(status, bytes, len);
    WANT(sam_server_free(&heir), SAM_OK);
    WANT(sam_term_free(&term), SAM_OK);
    WANT(sam_link_free(&end), SAM_OK);
}

/* A session with a crash after this step. Returns how many steps it has. */
static unsigned session(unsigned crashes_at)
{
    unsigned done = 0;
    bool moved = true;
    begin();
    while (moved) {
        moved = false;
        EVENT(sam_term_flush_now(&term));
        for (size_t i = 0; i < sizeof steps / sizeof steps[0]; i++) {
            if (!steps[i]())
                continue;
            moved = true;
            if (++done == crashes_at)
                crash();
        }
    }
    ends_well(crashes_at != NEVER);
    return done;
}

int main(int argc, char **argv)
{
    if (argc > 1) {
        session((unsigned)strtoul(argv[1], NULL, 10));
    } else {
        unsigned most = session(NEVER);
        WANT(most > 50, 1);
        for (unsigned step = 1; step <= most; step++)
            session(step);
    }
    puts("all as without a crash");
    return 0;
}
