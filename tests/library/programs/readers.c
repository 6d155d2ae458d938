/*
 * readers: sessions of random events (pair.h), in which all readers are called after each event and each piece of bytes. No reader, nor
 * _take_out, asks for memory (counted.h). Some sessions end in the midst, some stop at a wrong byte, the last is carried to its end. After
 * each, what was freed is given back. It prints what it counted.
 */
#include "reading.h"

#include "pair.h"

enum { SESSIONS = 12, USER_EVENTS = 60, ROOM = 64, LAST_TAG = 65535 };

/* What the readers have to find in one session or another. */
enum mark {
    NO_FILE,
    NOT_OPEN,
    PARTLY_LOADED,
    LOADED,
    A_GAP,
    IN_HALF,
    STOPPED,
    EVENT_HELD,
    LOCKED,
    UNSENT,
    REFUSED,
    WRITTEN,
    SAVED,
    PATTERN,
    SNARFED,
    MARKS
};
static const char *const mark_names[MARKS] = {"no file",         "not open",       "partly loaded", "loaded",    "a gap",
                                              "half a frame",    "stopped",        "held events",   "a lock",    "unsent runes",
                                              "a refused event", "a written file", "a saved text",  "a pattern", "a snarfed text"};

static bool is_met[MARKS];

static void note(enum mark mark, bool is)
{
    is_met[mark] = is_met[mark] || is;
}

/* The status of a reader, once it has asked for no memory. */
static void read_finish(sam_status status)
{
    note(IN_HALF, status == SAM_TRUNCATED);
    note(STOPPED, status == SAM_BAD_KIND);
}

static void read_host_file(uint16_t tag)
{
    uint8_t bytes[ROOM];
    uint32_t place = pick(4), start = 0, end = 0;
    size_t len = 0;
    bool is = false;
    READ(sam_host_has_file(&host, tag, &is));
    READ(sam_host_name(&host, tag, bytes, ROOM, &len));
    READ(sam_host_len(&host, tag, &end));
    READ(sam_host_is_dirty(&host, tag, &is));
    READ(sam_host_text(&host, tag, place, bytes, pick(ROOM), &len, &end));
    READ(sam_host_dot(&host, tag, &start, &end));
    note(SAVED, READ(sam_host_saved_len(&host, tag, &end)) == SAM_OK);
    READ(sam_host_saved(&host, tag, place, bytes, ROOM, &len, &end));
}

static void read_host(void)
{
    uint8_t kind = 0;
    uint16_t number = 0;
    uint8_t bytes[ROOM];
    uint64_t taken = 0;
    uint32_t runes = 0;
    size_t count = 0;
    bool is = false;
    read_finish(READ(sam_host_finish(&host)));
    READ(sam_host_next_message(&host, &kind, &number));
    READ(sam_host_pending(&host, &count));
    READ(sam_host_is_done(&host, &is));
    READ(sam_host_taken(&host, &taken));
    READ(sam_host_fault_place(&host, &taken));
    READ(sam_host_version(&host, &number));
    note(WRITTEN, READ(sam_host_next_written(&host, &number)) == SAM_OK);
    READ(sam_host_snarf_len(&host, &runes));
    READ(sam_host_snarf(&host, pick(4), bytes, ROOM, &count, &runes));
    READ(sam_host_tags(&host, &count));
    for (uint16_t tag = 0; tag <= count; tag++)
        read_host_file(tag);
    read_host_file(LAST_TAG);
}

/* What is loaded of a file from a place on, if it is open. */
static void read_rasp(uint16_t tag, uint32_t place)
{
    uint8_t bytes[ROOM];
    uint32_t runes[ROOM], count = 0, gaps = 0;
    size_t len = 0;
    READ(sam_term_read(&term, tag, place, runes, pick(ROOM), &count));
    READ(sam_term_text(&term, tag, place, bytes, pick(ROOM), &len, &count));
    READ(sam_term_bytes(&term, tag, place, place + pick(ROOM), &len, &gaps));
    note(PARTLY_LOADED, len > 0 && gaps > 0);
    note(LOADED, len > 0 && gaps == 0);
    READ(sam_term_place(&term, tag, place, pick(ROOM), &count));
    READ(sam_term_units(&term, tag, place, place + pick(ROOM), &count, &gaps));
    READ(sam_term_unit_place(&term, tag, place, pick(ROOM), &count));
    READ(sam_term_line(&term, tag, place, 1, &count));
    READ(sam_term_line_before(&term, tag, place, 1, &count));
    READ(sam_term_lines(&term, tag, place, place + pick(ROOM), &count, &gaps));
    note(A_GAP, READ(sam_term_first_gap(&term, tag, place, &gaps)) == SAM_OK);
}

/* All that is known of a tag at once is what its readers say one by one. */
static void read_file(uint16_t tag)
{
    static const sam_file other = {1, 2, 3, 4, 5, true, true, true, true, true, true};
    sam_file file = other;
    uint32_t len = 0, start = 0, end = 0;
    bool is = false;
    READ(sam_term_file(&term, tag, &file));
    want("is known", sam_term_is_known(&term, tag, &is) == SAM_OK && is == file.is_known ? SAM_OK : SAM_NONE);
    want("is open", sam_term_is_open(&term, tag, &is) == SAM_OK && is == file.is_open ? SAM_OK : SAM_NONE);
    want("is dirty", (sam_term_is_dirty(&term, tag, &is) == SAM_OK && is) == file.is_dirty ? SAM_OK : SAM_NONE);
    want("is changed", sam_term_is_changed(&term, tag, &is) == SAM_OK && is == file.is_changed ? SAM_OK : SAM_NONE);
    want("is locked", sam_term_locked(&term, tag, &is) == SAM_OK && is == file.is_locked ? SAM_OK : SAM_NONE);
    want("the length", (sam_term_len(&term, tag, &len) == SAM_OK) == file.is_open && len == file.len ? SAM_OK : SAM_NONE);
    want("the dot", (sam_term_dot(&term, tag, &start, &end) == SAM_OK) == file.is_open && start == file.dot_start && end == file.dot_end
                        ? SAM_OK
                        : SAM_NONE);
    start = end = 0;
    want("the view",
         (sam_term_view_of(&term, tag, &start, &end) == SAM_OK) == file.is_open && start == file.view_start && end == file.view_end
             ? SAM_OK
             : SAM_NONE);
}

static void read_term_file(uint16_t tag)
{
    uint8_t bytes[ROOM];
    uint32_t start = 0, end = 0;
    size_t len = 0;
    bool is_known = false, is_open = false, is = false;
    READ(sam_term_is_known(&term, tag, &is_known));
    READ(sam_term_is_open(&term, tag, &is_open));
    note(NO_FILE, !is_known);
    note(NOT_OPEN, is_known && !is_open);
    READ(sam_term_name(&term, tag, bytes, ROOM, &len));
    READ(sam_term_is_dirty(&term, tag, &is));
    READ(sam_term_is_changed(&term, tag, &is));
    READ(sam_term_locked(&term, tag, &is));
    note(LOCKED, is);
    READ(sam_term_len(&term, tag, &end));
    READ(sam_term_dot(&term, tag, &start, &end));
    READ(sam_term_view_of(&term, tag, &start, &end));
    read_file(tag);
    read_rasp(tag, 0);
    read_rasp(tag, pick(ROOM));
}

/* All that the terminal holds at once is what its readers say one by one. */
static void read_state(void)
{
    sam_state now;
    uint64_t events = 0, decided = 0, held = 0, sent = 0, under_way = 0;
    size_t pending = 0, tags = 0;
    uint32_t unsent = 0, snarf_len = 0;
    uint16_t version = 0;
    bool command_locked = false, exited = false;
    memset(&now, 0xFF, sizeof now);
    READ(sam_term_state(&term, &now));
    want("the counts", sam_term_events(&term, &events) | sam_term_decided(&term, &decided) | sam_term_held(&term, &held)
                           | sam_term_sent(&term, &sent) | sam_term_under_way(&term, &under_way));
    want("the lengths", sam_term_pending(&term, &pending) | sam_term_tags(&term, &tags) | sam_term_unsent(&term, &unsent)
                            | sam_term_snarf_len(&term, &snarf_len));
    want("the session",
         sam_term_version(&term, &version) | sam_term_command_locked(&term, &command_locked) | sam_term_exited(&term, &exited));
    bool is_same = events == now.events && decided == now.decided && held == now.held && sent == now.sent
        && under_way == now.under_way && pending == now.pending && tags == now.tags && unsent == now.unsent
        && snarf_len == now.snarf_len && version == now.version && command_locked == now.command_locked && exited == now.exited;
    want("the state", is_same ? SAM_OK : SAM_NONE);
}

static void read_counts(void)
{
    uint64_t number = 0;
    uint32_t runes = 0;
    size_t count = 0;
    READ(sam_term_pending(&term, &count));
    READ(sam_term_events(&term, &number));
    READ(sam_term_decided(&term, &number));
    READ(sam_term_sent(&term, &number));
    READ(sam_term_under_way(&term, &number));
    READ(sam_term_fault_place(&term, &number));
    READ(sam_term_unsent(&term, &runes));
    note(UNSENT, runes > 0);
    READ(sam_term_held(&term, &number));
    note(EVENT_HELD, number > 0);
    read_state();
}

static void read_term(void)
{
    uint8_t bytes[ROOM];
    uint64_t event = 0;
    uint32_t runes = 0;
    uint16_t number = 0;
    size_t count = 0;
    sam_status why;
    sam_did next;
    bool is = false;
    read_finish(READ(sam_term_finish(&term)));
    read_counts();
    READ(sam_term_next_frame(&term, &next));
    note(REFUSED, READ(sam_term_next_refusal(&term, &event, &why)) == SAM_OK);
    READ(sam_term_command_locked(&term, &is));
    READ(sam_term_exited(&term, &is));
    READ(sam_term_version(&term, &number));
    READ(sam_term_current(&term, &number));
    READ(sam_term_pattern(&term, bytes, ROOM, &count));
    note(PATTERN, count > 0);
    READ(sam_term_snarf_len(&term, &runes));
    READ(sam_term_snarfed(&term, pick(4), bytes, ROOM, &count, &runes));
    note(SNARFED, count > 0);
    READ(sam_term_tags(&term, &count));
    for (uint16_t tag = 0; tag <= count; tag++)
        read_term_file(tag);
    read_term_file(LAST_TAG);
}

static void read_all(void)
{
    read_host();
    read_term();
}

static void do_thing(uint32_t kind, uint16_t tag, uint32_t a, uint32_t b, const char *text)
{
    act(kind, tag, a, b, text);
    read_all();
}

/* Carries a piece of random length to the host, or to the terminal. */
static void carry_piece(bool is_up)
{
    uint8_t piece[PIECE];
    size_t room = 1 + pick(PIECE), count = 0;
    if (is_up)
        want("the terminal's bytes", READ(sam_term_take_out(&term, piece, room, &count)));
    else
        want("the host's bytes", READ(sam_host_take_out(&host, piece, room, &count)));
    if (count > 0 && is_up)
        feed_host(piece, count);
    else if (count > 0)
        feed_term(piece, count);
    read_all();
}

static void begin(void)
{
    memset(copies, 0, sizeof copies);
    make();
    read_all();
    do_thing(OFFER_VERSION, 0, 1, 0, ""); /* version 2, which asks for the names */
    do_thing(OPEN_CMD, 0, 0, 0, "");
    do_thing(OPEN, 1, 0, 0, "");
    do_thing(VIEW, 1, 0, 20, "");
}

static void play(void)
{
    static const char *const texts[] = {"a", "\n", "x\xE2\x86\x92y\n", "s/a/bb/\n", ",x/l/c/L/\n", "f name\n"};
    for (int i = 0; i < USER_EVENTS; i++) {
        uint32_t kind = pick(KINDS), a = pick(40), b = pick(40);
        uint16_t tag = (uint16_t)pick(FILES + 2);
        do_thing(kind, tag, a, b, texts[pick(sizeof texts / sizeof texts[0])]);
        while (pick(4) != 0)
            carry_piece(pick(2));
    }
}

/* Both sides stop at a byte that begins no frame, once they have taken the frame that may have come in half. */
static void stop_both(void)
{
    static const uint8_t wrong[1] = {0};
    while (sam_host_finish(&host) == SAM_TRUNCATED || sam_term_finish(&term) == SAM_TRUNCATED)
        carry_piece(pick(2));
    if (sam_host_feed(&host, wrong, 1) != SAM_BAD_KIND || sam_term_feed(&term, wrong, 1) != SAM_BAD_KIND)
        fail("a wrong byte is taken", 0);
    read_all();
}

/* A session of random events. The last ends with all carried. */
static void live(unsigned session)
{
    long out = blocks;
    state = session * 2654435769U + 88172645463325252U;
    begin();
    play();
    if (session == SESSIONS) {
        drain();
        read_all();
        end();
    } else {
        if (session % 2 == 0)
            stop_both();
        want("free the host", sam_host_free(&host));
        want("free the terminal", sam_term_free(&term));
    }
    if (blocks != out)
        fail("blocks are out after both are freed", (uint32_t)(blocks - out));
}

int main(void)
{
    setvbuf(stdout, NULL, _IONBF, 0);
    for (unsigned session = 1; session <= SESSIONS; session++)
        live(session);
    for (int mark = 0; mark < MARKS; mark++) {
        if (!is_met[mark]) {
            printf("the readers have not met %s\n", mark_names[mark]);
            return 1;
        }
    }
    printf("%lu calls of readers, none asks for memory\n", reader_calls);
    return 0;
}
