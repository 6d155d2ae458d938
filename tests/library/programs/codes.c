/*
 * Each status that a call of sulgrevad.h can return, and where calls work: with session.c, texts.c and empty_handles.c each call once and
 * each of its statuses once, but for full counts, and for SAM_NO_MEMORY and SAM_UNFINISHED, which random.c and each.c meet. The bytes and
 * texts that are expected stand in docs/reference/PROTOCOL.md and RFC 3629. It prints a line for each group, and ends with status 0, or 1
 * and the line that failed.
 */
#include "wanting.h"

/* Adding files: each refusal in its order, and the host as it was after it. */
static void adding(void)
{
    static uint8_t letters[1000001];
    sam_host host = {0};
    uint16_t tag = 99;
    size_t tags = 0;
    memset(letters, 'x', sizeof letters);
    WANT(sam_host_new(&host), SAM_OK);
    WANT(sam_host_new(&host), SAM_MADE);
    WANT(sam_host_add_file(&host, BYTES("\xFF"), BYTES("x"), &tag), SAM_NOT_TEXT);
    WANT(sam_host_add_file(&host, BYTES("x"), BYTES("\xC3"), &tag), SAM_NOT_TEXT);
    WANT(sam_host_add_file(&host, letters, 65, BYTES("\xC3"), &tag), SAM_NOT_TEXT);
    WANT(sam_host_add_file(&host, letters, 65, BYTES("x"), &tag), SAM_ADD_TOO_LONG);
    WANT(sam_host_add_file(&host, BYTES("x"), letters, 1000001, &tag), SAM_ADD_TOO_LONG);
    WANT(tag, 99);
    WANT(sam_host_add_file(&host, letters, 64, letters, 1000000, &tag), SAM_OK);
    WANT(tag, 1);
    WANT(sam_host_tags(&host, &tags), SAM_OK);
    WANT(tags, 2);
    WANT(sam_host_feed(&host, BYTES("\1\0\2\0\2")), SAM_OK); /* Tversion(2) */
    WANT(sam_host_add_file(&host, BYTES("\xFF"), BYTES("x"), &tag), SAM_NOT_TEXT);
    WANT(sam_host_add_file(&host, letters, 65, BYTES("x"), &tag), SAM_ADD_TOO_LONG);
    WANT(tag, 1);
    WANT(sam_host_add_file(&host, BYTES("late"), BYTES("x"), &tag), SAM_OK);
    WANT(tag, 2);
    WANT(sam_host_feed(&host, BYTES("\xFF")), SAM_BAD_KIND);
    WANT(sam_host_add_file(&host, BYTES("last"), BYTES("x"), &tag), SAM_OK);
    WANT(tag, 3);
    WANT(sam_host_feed(&host, NULL, 0), SAM_BAD_KIND);
    WANT(sam_host_free(&host), SAM_OK);
    WANT(sam_host_free(&host), SAM_NO_HANDLE);
}

/* Marking a file: each refusal in its order, and what is pending after it. */
static void marking(void)
{
    sam_host host = {0};
    uint16_t tag = 0;
    uint8_t bytes[64];
    size_t len = 99;
    bool is = true;
    WANT(sam_host_new(&host), SAM_OK);
    WANT(sam_host_add_file(&host, BYTES("a"), BYTES("one"), &tag), SAM_OK);
    WANT(sam_host_mark_dirty(&host, 2), SAM_NONE);
    WANT(sam_host_mark_dirty(&host, 0), SAM_MARK_COMMAND_FILE);
    WANT(sam_host_mark_dirty(&host, 1), SAM_MARK_NOT_ANNOUNCED);
    WANT(sam_host_pending(&host, &len), SAM_OK);
    WANT(len, 0);
    WANT(sam_host_is_dirty(&host, 1, &is), SAM_OK);
    WANT(is, 0);
    WANT(sam_host_feed(&host, BYTES("\1\0\2\0\2")), SAM_OK); /* Tversion(2) */
    WANT(sam_host_take_out(&host, bytes, sizeof bytes, &len), SAM_OK);
    WANT(sam_host_mark_dirty(&host, 1), SAM_OK);
    WANT(sam_host_mark_dirty(&host, 1), SAM_OK); /* it is dirty already */
    WANT(sam_host_is_dirty(&host, 1, &is), SAM_OK);
    WANT(is, 1);
    WANT(sam_host_take_out(&host, bytes, sizeof bytes, &len), SAM_OK);
    WANT(len == 13 && memcmp(bytes, "\x50\0\x0a\0\0\0\0\0\0\0\1\0\1", 13) == 0, 1); /* one Hdirty(1) */
    WANT(sam_host_free(&host), SAM_OK);
}

static void all_tags(void)
{
    sam_host host = {0};
    uint16_t tag = 0;
    WANT(sam_host_new(&host), SAM_OK);
    for (unsigned i = 1; i < 65536; i++)
        WANT(sam_host_add_file(&host, BYTES("n"), BYTES(""), &tag), SAM_OK);
    WANT(tag, 65535);
    WANT(sam_host_add_file(&host, BYTES("n"), BYTES(""), &tag), SAM_ADD_NO_TAG);
    WANT(sam_host_free(&host), SAM_OK);
}

/* Feeds bytes to a new host that has one file; returns the status, and wants that it stays. */
static sam_status fed_host(const char *bytes, size_t len)
{
    sam_host host = {0};
    uint16_t tag;
    WANT(sam_host_new(&host), SAM_OK);
    WANT(sam_host_add_file(&host, BYTES("a"), BYTES("one"), &tag), SAM_OK);
    sam_status status = sam_host_feed(&host, (const uint8_t *)bytes, len);
    if (status != SAM_OK) {
        sam_did did = {0};
        WANT(sam_host_feed(&host, NULL, 0), status);
        WANT(sam_host_bring(&host, NULL, 0), status);
        WANT(sam_host_step(&host, &did), status);
        WANT(did.step, SAM_STEP_IDLE);
        WANT(sam_host_finish(&host), status);
    }
    WANT(sam_host_free(&host), SAM_OK);
    return status;
}

#define HOST(bytes) fed_host(bytes, sizeof(bytes) - 1)

static sam_status fed_term(const char *bytes, size_t len)
{
    sam_term term = {0};
    WANT(sam_term_new(&term), SAM_OK);
    sam_status status = sam_term_feed(&term, (const uint8_t *)bytes, len);
    if (status != SAM_OK) {
        sam_did did = {0};
        WANT(sam_term_feed(&term, NULL, 0), status);
        WANT(sam_term_bring(&term, NULL, 0), status);
        WANT(sam_term_step(&term, &did), status);
        WANT(sam_term_cut(&term, 0), status);
        WANT(sam_term_type(&term, 0, BYTES("x")), status);
        WANT(sam_term_edit(&term, 0, 0, 0, BYTES("x")), status);
        WANT(sam_term_flush_now(&term), status);
        WANT(sam_term_finish(&term), status);
    }
    WANT(sam_term_free(&term), SAM_OK);
    return status;
}

#define TERM(bytes) fed_term(bytes, sizeof(bytes) - 1)

/* Eight bytes that count no message: what each body of the host begins with. */
#define SEEN "\0\0\0\0\0\0\0\0"
#define HNEWNAME_1 "\x44\0\x0a" SEEN "\0\x01"
#define HBINDNAME_1 "\x42\0\x0a" SEEN "\0\x01"

/* Where a wrong frame begins. There is no such place before it has come, nor where a message is refused. */
static void places_of_faults(void)
{
    sam_host host = SAM_HOST_INIT, refusing = SAM_HOST_INIT;
    sam_term term = SAM_TERM_INIT;
    uint64_t place = 99;
    WANT(sam_host_new(&host), SAM_OK);
    WANT(sam_host_new(&refusing), SAM_OK);
    WANT(sam_term_new(&term), SAM_OK);
    WANT(sam_host_fault_place(&host, &place), SAM_NONE);
    WANT(sam_term_fault_place(&term, &place), SAM_NONE);
    WANT(sam_host_feed(&refusing, BYTES("\x06\0\x02\0\x09")), SAM_HOST_NO_FILE);
    WANT(sam_host_fault_place(&refusing, &place), SAM_NONE);
    WANT(place, 99);
    WANT(sam_host_feed(&host, BYTES("\x01\0\x02\0\x02\x17")), SAM_BAD_KIND); /* Tversion(2), and no kind */
    WANT(sam_host_fault_place(&host, &place), SAM_OK);
    WANT(place, 5);
    WANT(sam_term_feed(&term, BYTES(HNEWNAME_1 "\x40")), SAM_BAD_KIND);
    WANT(sam_term_fault_place(&term, &place), SAM_OK);
    WANT(place, 13);
    WANT(sam_host_free(&host), SAM_OK);
    WANT(sam_host_free(&refusing), SAM_OK);
    WANT(sam_term_free(&term), SAM_OK);
}

static void wrong_streams(void)
{
    places_of_faults();
    WANT(HOST("\x17"), SAM_BAD_KIND);
    WANT(HOST("\x01\0\x03"), SAM_BAD_LENGTH);
    WANT(HOST("\x08\0\x07\0\x01\0\0\0\0\xFF"), SAM_BAD_TEXT);
    WANT(HOST("\x06\0\x02\0\x09"), SAM_HOST_NO_FILE);
    WANT(HOST("\x0d\0\x02\0\x01"), SAM_HOST_NOT_OPEN);
    WANT(HOST("\x06\0\x02\0\x01\x09\0\x0a\0\x01\0\0\0\0\0\0\0\x09"), SAM_HOST_BAD_POSITION);
    WANT(HOST("\x01\0\x02\0\0"), SAM_HOST_BAD_VERSION);
    WANT(HOST("\x0e\0\x02\0\0"), SAM_HOST_COMMAND_FILE);
    WANT(TERM("\x40"), SAM_BAD_KIND);
    WANT(TERM("\x48\0\x09"), SAM_BAD_LENGTH);
    WANT(TERM("\x45\0\x0b" SEEN "\0\x01\xFF"), SAM_BAD_TEXT);
    WANT(TERM("\x48\0\x08\0\0\0\0\0\0\0\x01"), SAM_TERM_FROM_THE_FUTURE);
    WANT(TERM("\x42\0\x0a" SEEN "\0\x05"), SAM_TERM_NO_FILE);
    WANT(TERM(HNEWNAME_1 "\x47\0\x0a" SEEN "\0\x01"), SAM_TERM_NOT_OPEN);
    WANT(TERM(HNEWNAME_1 HNEWNAME_1), SAM_TERM_ALREADY_BOUND);
    WANT(TERM(HNEWNAME_1 HBINDNAME_1 "\x4c\0\x12" SEEN "\0\x01\0\0\0\0\0\0\0\x09"), SAM_TERM_BAD_POSITION);
    WANT(TERM(HNEWNAME_1 HBINDNAME_1 "\x46\0\x12" SEEN "\0\x01\0\0\0\0\0\x0f\x42\x41"), SAM_TERM_TOO_LONG);
    WANT(TERM("\x48\0\x08" SEEN), SAM_TERM_LOCK_NOT_HELD);
    WANT(TERM(HNEWNAME_1 HBINDNAME_1), SAM_OK);
}

/* A step of the host, or of the terminal, does this. */
static sam_did stepped_host(sam_host *host, sam_step step)
{
    sam_did did;
    WANT(sam_host_step(host, &did), SAM_OK);
    WANT(did.step, step);
    return did;
}

static sam_did stepped_term(sam_term *term, sam_step step)
{
    sam_did did;
    WANT(sam_term_step(term, &did), SAM_OK);
    WANT(did.step, step);
    return did;
}

/* Messages to a host: Tversion, Tstartfile, two Ttype and a Tcut of file 1, and a kind that there is not. */
static void host_steps(void)
{
    sam_host host = SAM_HOST_INIT;
    uint8_t kind = 0;
    uint16_t tag = 0;
    WANT(sam_host_new(&host), SAM_OK);
    WANT(sam_host_add_file(&host, BYTES("a"), BYTES("one"), &tag), SAM_OK);
    stepped_host(&host, SAM_STEP_IDLE);
    WANT(sam_host_next_message(&host, &kind, &tag), SAM_NONE);
    WANT(sam_host_bring(&host, BYTES("\x01\0\x02\0\x02\x06\0\x02\0\x01\x08\0\x07\0\x01\0\0\0\0x\x08\0\x07\0\x01\0\0\0\x01y"
                                     "\x09\0\x0a\0\x01\0\0\0\0\0\0\0\x01\x17")),
         SAM_OK);
    WANT(sam_host_bring(&host, NULL, 0), SAM_WAITING);
    WANT(sam_host_next_message(&host, &kind, &tag), SAM_OK);
    WANT(kind * 256 + tag, 0x100);
    sam_did did = stepped_host(&host, SAM_STEP_ANSWERED);
    WANT(did.kind == 1 && did.tag == 0 && did.count == 1, true);
    stepped_host(&host, SAM_STEP_WROTE);
    did = stepped_host(&host, SAM_STEP_ANSWERED);
    WANT(did.kind == 6 && did.tag == 1 && did.count == 1, true);
    stepped_host(&host, SAM_STEP_WROTE);
    WANT(sam_host_next_message(&host, &kind, &tag), SAM_OK);
    WANT(kind * 256 + tag, 0x801);
    did = stepped_host(&host, SAM_STEP_EDITED);
    WANT(did.tag == 1 && did.count == 3 && did.kind == 0, true);
    same_text(&host, 1, "yone");
    WANT(sam_host_bring(&host, NULL, 0), SAM_WAITING);
    WANT(sam_host_step(&host, &did), SAM_BAD_KIND);
    WANT(did.step, SAM_STEP_EDITED);
    WANT(sam_host_free(&host), SAM_OK);
}

static sam_did next_frame(sam_term *term)
{
    sam_did next;
    WANT(sam_term_next_frame(term, &next), SAM_OK);
    WANT(next.step, SAM_STEP_RECEIVED);
    return next;
}

/* Many readers at once, after the steps of term_steps: file 1 has "b", whose dot is after it; the cut is not taken out. */
static void at_once(sam_term *term)
{
    sam_state state;
    sam_file file, none;
    WANT(sam_term_state(term, &state), SAM_OK);
    WANT(state.events == 4 && state.decided == 4 && state.held == 0 && state.sent == 3 && state.under_way == 3, true);
    WANT(state.pending == 5 + 13 + 13 && state.tags == 2 && state.unsent == 0 && state.snarf_len == 0, true);
    WANT(state.version == 1 && !state.command_locked && !state.exited, true);
    WANT(sam_term_file(term, 1, &file), SAM_OK);
    WANT(file.is_known && file.is_open && !file.is_dirty && file.is_changed && !file.is_locked && file.is_free, true);
    WANT(file.len == 1 && file.dot_start == 1 && file.dot_end == 1 && file.view_start == 0 && file.view_end == 0, true);
    WANT(sam_term_file(term, 7, &none), SAM_OK);
    WANT(none.is_known || none.is_open || none.is_dirty || none.is_changed || none.is_locked || none.is_free, false);
    WANT(none.len + none.dot_start + none.dot_end + none.view_start + none.view_end, 0);
}

/* Edits of file 1, from "abc": each Hcut or Hgrowdata is received at once with those before it, if it is above them and in bounds. */
static void term_edits(void)
{
    sam_term term = SAM_TERM_INIT;
    sam_did did[4];
    size_t got = 9;
    WANT(sam_term_new(&term), SAM_OK);
    WANT(sam_term_step_edits(&term, 0, did, 4, &got), SAM_OK);
    WANT(got, 0);
    WANT(sam_term_offer_version(&term, 2), SAM_OK);
    WANT(sam_term_feed(&term, BYTES(HNEWNAME_1 HBINDNAME_1 "\x4d\0\x11" SEEN "\0\x01\0\0\0\0abc")), SAM_OK);
#define CUT(place) "\x51\0\x12" SEEN "\0\x01\0\0\0" place "\0\0\0\x01"
#define GROWDATA(place, rune) "\x4d\0\x0f" SEEN "\0\x01\0\0\0" place rune
    WANT(sam_term_bring(&term, BYTES(CUT("\2") GROWDATA("\2", "x") CUT("\1") GROWDATA("\1", "y") CUT("\1") CUT("\0") GROWDATA("\0", "z"))),
         SAM_OK);
    WANT(sam_term_step_edits(&term, 0, did, 3, &got), SAM_OK); /* as many as there is room for */
    WANT(got, 3);
    WANT(did[0].step == SAM_STEP_RECEIVED && did[0].kind == 0x51 && did[0].tag == 1 && did[0].start == 2 && did[0].gone == 1, true);
    WANT(did[1].kind == 0x4d && did[1].start == 2 && did[1].gone == 0 && did[1].came == 1, true);
    WANT(did[2].kind == 0x51 && did[2].start == 1 && did[2].gone == 1 && did[2].came == 0, true);
    WANT(sam_term_step_edits(&term, 0, did, 4, &got), SAM_OK); /* what came is not cut again */
    WANT(got == 1 && did[0].kind == 0x4d && did[0].start == 1, true);
    WANT(sam_term_step_edits(&term, 1, did, 4, &got), SAM_OK); /* none begins before the first place */
    WANT(got == 1 && did[0].kind == 0x51 && did[0].start == 1, true);
    WANT(sam_term_step_edits(&term, 0, did, 4, &got), SAM_OK);
    WANT(got == 2 && did[0].start == 0 && did[0].gone == 1 && did[1].came == 1, true);
    WANT(sam_term_step_edits(&term, 0, did, 4, &got), SAM_OK);
    WANT(got, 0);
    uint32_t runes[3];
    uint32_t count;
    WANT(sam_term_read(&term, 1, 0, runes, 3, &count), SAM_OK);
    WANT(count == 2 && runes[0] == 'z' && runes[1] == 'x', true);
    WANT(sam_term_free(&term), SAM_OK);
}

/* Frames to a terminal: Hnewname, Hbindname, Hgrowdata and Hcut of file 1, and Hunlock, which the events wait for. */
static void term_steps(void)
{
    sam_term term = SAM_TERM_INIT;
    WANT(sam_term_new(&term), SAM_OK);
    stepped_term(&term, SAM_STEP_IDLE);
    WANT(sam_term_offer_version(&term, 2), SAM_OK);
    WANT(sam_term_select(&term, 1, 1, 2), SAM_OK);
    WANT(sam_term_cut(&term, 1), SAM_OK);
    WANT(sam_term_cut(&term, 7), SAM_OK);
    stepped_term(&term, SAM_STEP_LOCKED);
    WANT(sam_term_bring(&term, BYTES(HNEWNAME_1 HBINDNAME_1 "\x4d\0\x11" SEEN "\0\x01\0\0\0\0abc"
                                                            "\x51\0\x12" SEEN "\0\x01\0\0\0\0\0\0\0\x01\x48\0\x08" SEEN)),
         SAM_OK);
    WANT(sam_term_bring(&term, NULL, 0), SAM_WAITING);
    sam_did did = next_frame(&term);
    WANT(did.kind == 0x44 && did.tag == 1 && did.gone == 0, true);
    WANT(stepped_term(&term, SAM_STEP_RECEIVED).kind, 0x44);
    WANT(stepped_term(&term, SAM_STEP_RECEIVED).kind, 0x42);
    did = stepped_term(&term, SAM_STEP_RECEIVED);
    WANT(did.kind == 0x4d && did.tag == 1 && did.start == 0 && did.gone == 0 && did.came == 3, true);
    did = next_frame(&term);
    WANT(did.kind == 0x51 && did.tag == 1 && did.start == 0 && did.gone == 1 && did.came == 0, true);
    did = stepped_term(&term, SAM_STEP_RECEIVED);
    WANT(did.kind == 0x51 && did.tag == 1 && did.start == 0 && did.gone == 1 && did.came == 0, true);
    did = stepped_term(&term, SAM_STEP_RECEIVED);
    WANT(did.kind == 0x48 && did.tag == 0, true);
    did = stepped_term(&term, SAM_STEP_ACTED);
    WANT(did.event == 2 && did.tag == 1 && did.gone == 0 && did.came == 0, true);
    did = stepped_term(&term, SAM_STEP_ACTED);
    WANT(did.event == 3 && did.tag == 1 && did.start == 1 && did.gone == 1 && did.came == 0, true);
    stepped_term(&term, SAM_STEP_WROTE);
    did = stepped_term(&term, SAM_STEP_REFUSED);
    WANT(did.event == 4 && did.why == SAM_REFUSAL_NO_FILE && did.tag == 0, true);
    stepped_term(&term, SAM_STEP_IDLE);
    did.kind = 0xFF;
    WANT(sam_term_next_frame(&term, &did), SAM_NONE);
    WANT(did.kind, 0xFF);
    at_once(&term);
    WANT(sam_term_free(&term), SAM_OK);
}

/* Streams that end between two frames, and inside one: after its kind, in its length, before its last byte. The handle goes on. */
static void ending_streams(void)
{
    static const uint8_t message[] = {1, 0, 2, 0, 2}; /* Tversion 2 */
    static const char frames[] = HNEWNAME_1 HNEWNAME_1;
    enum { HALF = sizeof frames / 2 };
    sam_host host = SAM_HOST_INIT;
    sam_term term = SAM_TERM_INIT;
    WANT(sam_host_new(&host), SAM_OK);
    WANT(sam_host_finish(&host), SAM_OK);
    for (size_t i = 0; i < sizeof message; i++) {
        WANT(sam_host_feed(&host, message + i, 1), SAM_OK);
        WANT(sam_host_finish(&host), i + 1 < sizeof message ? SAM_TRUNCATED : SAM_OK);
    }
    WANT(sam_host_free(&host), SAM_OK);
    WANT(sam_term_new(&term), SAM_OK);
    WANT(sam_term_finish(&term), SAM_OK);
    for (size_t i = 0; i < HALF; i++) {
        WANT(sam_term_feed(&term, (const uint8_t *)frames + i, 1), SAM_OK);
        WANT(sam_term_finish(&term), i + 1 < HALF ? SAM_TRUNCATED : SAM_OK);
    }
    WANT(sam_term_free(&term), SAM_OK);
}

/* A file that is known and not open: the events that want a window. */
static void not_open(void)
{
    sam_host host = {0};
    sam_term term = {0};
    uint16_t tag;
    WANT(sam_host_new(&host), SAM_OK);
    WANT(sam_host_add_file(&host, BYTES("a"), BYTES("one"), &tag), SAM_OK);
    WANT(sam_term_new(&term), SAM_OK);
    WANT(sam_term_new(&term), SAM_MADE);
    WANT(sam_term_offer_version(&term, 1), SAM_OK);
    carry(&term, &host);
    WANT(sam_term_cut(&term, 1), SAM_OK);
    wants_refusal(&term, SAM_REFUSAL_NOT_OPEN);
    WANT(sam_term_free(&term), SAM_OK);
    WANT(sam_host_free(&host), SAM_OK);
}

/* Replays a script into a buffer that has this room, with an untouched byte after it; wants the status, the line, the number of bytes
 * that are printed, and those that fit. */
static void replays(const char *script, size_t room, sam_status status, size_t line, const char *printed)
{
    uint8_t buffer[80];
    size_t len = 777, at = 888, all = strlen(printed), put = all < room ? all : room;
    memset(buffer, 9, sizeof buffer);
    WANT(room < sizeof buffer, 1);
    WANT(sam_replay((const uint8_t *)script, strlen(script), room > 0 ? buffer : NULL, room, &len, &at), status);
    WANT(len, status == SAM_OK ? all : 777);
    WANT(at, status == SAM_SCRIPT_LINE ? line : 888);
    WANT(memcmp(buffer, printed, put), 0);
    for (size_t i = put; i < sizeof buffer; i++)
        WANT(buffer[i], 9);
}

/* What an empty host and an empty terminal show, and a host with one file. */
#define SHOWN "= h 0 - c ~~sam~~ ||\n= s 0 0 0 0 0 0\n"
#define SHOWN_FILE "= h 0 - c ~~sam~~ ||\n= h 1 - c n |t|\n= s 0 0 0 0 0 0\n"

/* The replay of scripts: with room, without, and with too little; wrong lines, and lines that can't be done. */
static void replaying(void)
{
    size_t len = 777, line = 888;
    uint8_t buffer[8];
    WANT(sam_replay(NULL, 0, buffer, sizeof buffer, &len, &line), SAM_OK);
    WANT(len == 0 && line == 888, 1);
    replays("", 8, SAM_OK, 0, "");
    replays("show\n", 79, SAM_OK, 0, SHOWN);
    replays("show", sizeof SHOWN - 1, SAM_OK, 0, SHOWN);
    replays("show", sizeof SHOWN - 2, SAM_OK, 0, SHOWN);
    replays("show", 1, SAM_OK, 0, SHOWN);
    replays("show", 0, SAM_OK, 0, SHOWN);
    replays("file n t\ndrain\nshow\n", 79, SAM_OK, 0, SHOWN_FILE);
    replays("show\nshow\n", 60, SAM_OK, 0, SHOWN SHOWN);
    replays("show\nfly\nhost\n", 79, SAM_SCRIPT_LINE, 2, "");
    replays("host\nfly\n", 79, SAM_SCRIPT_LINE, 2, ""); /* no line is done before all are read */
    replays("show\nhost\nterm\n", 79, SAM_SCRIPT_LINE, 2, "");
    replays("k version 1\nact\nhost\nterm\nterm\nterm\n", 79, SAM_OK, 0, ""); /* Hversion, Hack, Hunlock */
    replays("k version 1\nact\nhost\nterm\nterm\nterm\nterm\n", 79, SAM_SCRIPT_LINE, 7, "");
    replays("show\n\xFF\n", 79, SAM_SCRIPT_LINE, 2, "");
}

/* The calls that take no handle. */
static void no_handle_needed(void)
{
    WANT(sam_library_version(), SAM_VERSION);
    WANT(SAM_VERSION, SAM_VERSION_MAJOR * 65536 + SAM_VERSION_MINOR * 256 + SAM_VERSION_PATCH);
    WANT(strcmp(sam_status_text(SAM_NOT_TEXT), "SAM_NOT_TEXT: the bytes are not UTF-8"), 0);
    WANT(strcmp(sam_status_text(SAM_ADD), "unknown status"), 0);
    WANT(strcmp(sam_status_text(SAM_STATUS_WIDTH), "unknown status"), 0);
    WANT(sizeof(sam_status), 4);
    for (int status = 0; status < 256; status++) {
        bool is_of_stream = status == SAM_BAD_KIND || status == SAM_BAD_LENGTH || status == SAM_BAD_TEXT;
        bool is_known = strcmp(sam_status_text((sam_status)status), "unknown status") != 0;
        bool is_refused = is_known && ((64 < status && status < 96) || (96 < status && status < 128));
        WANT(sam_is_stop((sam_status)status) && is_known, is_of_stream || is_refused);
    }
}

int main(void)
{
    no_handle_needed();
    adding();
    marking();
    all_tags();
    puts("adding files");
    wrong_streams();
    ending_streams();
    puts("wrong streams, and where a stream may end");
    host_steps();
    term_edits();
    term_steps();
    puts("single steps");
    not_open();
    puts("a file that is not open");
    replaying();
    puts("replays");
    return 0;
}
