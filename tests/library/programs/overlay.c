/*
 * overlay: each call of an overlay where it does its work, and each status that it can return but for full counts, SAM_NO_MEMORY and
 * SAM_UNFINISHED, which waiting.c meets. What is shown is worked out by hand from sulgrevad.h. Calls that are said to take no memory ask
 * for none (reading.h). It ends with status 0, or 1 and the line that failed. Requests are in overlay_requests.c.
 */
#include "frame_bytes.h"
#include "overlay_session.h"

static void no_handles(sam_overlay *overlay)
{
    uint8_t bytes[ROOM] = "unused";
    uint32_t runes[2] = {1, 2}, count = 3, more = 4;
    uint64_t number = 5;
    uint16_t tag = 6;
    size_t len = 7;
    sam_did did = {.event = 8};
    sam_splice splice = {.count = 9};
    sam_event event = {.kind = SAM_EVENT_FLUSH};
    sam_put put = SAM_PUT_EDIT;
    sam_turn turn = SAM_TURN_REQUEST;
    sam_state state = {.events = 10};
    sam_file file = {.len = 11};
    WANT(sam_overlay_free(overlay), SAM_NO_HANDLE);
    WANT(sam_overlay_bring(overlay, BYTES("x")), SAM_NO_HANDLE);
    WANT(sam_overlay_step(overlay, &did), SAM_NO_HANDLE);
    WANT(sam_overlay_next_splice(overlay, &splice), SAM_NO_HANDLE);
    WANT(sam_overlay_finish(overlay), SAM_NO_HANDLE);
    WANT(sam_overlay_fault_place(overlay, &number), SAM_NO_HANDLE);
    WANT(sam_overlay_pending(overlay, &len), SAM_NO_HANDLE);
    WANT(sam_overlay_take_out(overlay, bytes, sizeof bytes, &len), SAM_NO_HANDLE);
    WANT(sam_overlay_replace(overlay, 0, 0, 0, BYTES("\xFF")), SAM_NO_HANDLE);
    WANT(sam_overlay_put_next(overlay, 0, &put), SAM_NO_HANDLE);
    WANT(sam_overlay_drop_next(overlay, 0, &splice, bytes, sizeof bytes, &len), SAM_NO_HANDLE);
    WANT(sam_overlay_bring_event(overlay, &event, BYTES("\xFF")), SAM_NO_HANDLE);
    WANT(sam_overlay_ask(overlay, &event, BYTES("\xFF"), &number), SAM_NO_HANDLE);
    WANT(sam_overlay_act_next(overlay, &turn), SAM_NO_HANDLE);
    WANT(sam_overlay_requests(overlay, &len), SAM_NO_HANDLE);
    WANT(sam_overlay_next_refusal(overlay, &number, &count), SAM_NO_HANDLE);
    WANT(sam_overlay_state(overlay, &state), SAM_NO_HANDLE);
    WANT(sam_overlay_file(overlay, 0, &file), SAM_NO_HANDLE);
    WANT(sam_overlay_name(overlay, 0, bytes, sizeof bytes, &len), SAM_NO_HANDLE);
    WANT(sam_overlay_current(overlay, &tag), SAM_NO_HANDLE);
    WANT(sam_overlay_pattern(overlay, bytes, sizeof bytes, &len), SAM_NO_HANDLE);
    WANT(sam_overlay_snarfed(overlay, 0, bytes, sizeof bytes, &len, &more), SAM_NO_HANDLE);
    WANT(sam_overlay_waiting(overlay, 0, &count), SAM_NO_HANDLE);
    WANT(sam_overlay_next_waiting(overlay, 0, &tag), SAM_NO_HANDLE);
    WANT(sam_overlay_first_gap(overlay, 0, 0, &count), SAM_NO_HANDLE);
    WANT(sam_overlay_len(overlay, 0, &count), SAM_NO_HANDLE);
    WANT(sam_overlay_read(overlay, 0, 0, runes, 2, &count), SAM_NO_HANDLE);
    WANT(sam_overlay_text(overlay, 0, 0, bytes, sizeof bytes, &len, &more), SAM_NO_HANDLE);
    WANT(memcmp(bytes, "unused", 7) == 0 && runes[0] == 1 && count == 3 && more == 4 && number == 5 && tag == 6 && len == 7, 1);
    WANT(did.event == 8 && splice.count == 9 && put == SAM_PUT_EDIT && turn == SAM_TURN_REQUEST && state.events == 10 && file.len == 11, 1);
}

/* ---- What is typed under a lock ---- */

/* A write locks the file. What the user does meanwhile is shown at once, and comes to the host once the file is free. */
static void typed_under_a_lock(void)
{
    sam_host host = SAM_HOST_INIT;
    sam_overlay overlay = SAM_OVERLAY_INIT;
    sam_file file;
    open_both(&host, &overlay, "hello", true);
    WANT(put(&overlay), SAM_PUT_NOTHING);
    WANT(event_of(&overlay, SAM_EVENT_WRITE, 1, 0, 0), SAM_OK);
    go_on(&overlay);
    WANT(READ(sam_overlay_file(&overlay, 1, &file)), SAM_OK);
    WANT(file.is_locked, true);
    WANT(sam_overlay_replace(&overlay, 1, 5, 5, BYTES(" world!")), SAM_OK);
    WANT(sam_overlay_replace(&overlay, 1, 0, 1, BYTES("J")), SAM_OK);
    shows(&overlay, 1, "Jello world!");
    WANT(waiting(&overlay), 8);
    WANT(READ(sam_overlay_file(&overlay, 1, &file)), SAM_OK);
    WANT(file.len, 5);
    WANT(put(&overlay), SAM_PUT_NOT_FREE);
    up(&overlay, &host);
    same_text(&host, 1, "hello");
    bring_down(&overlay, &host);
    go_on(&overlay);
    shows(&overlay, 1, "Jello world!");
    for (int edits = 0; edits < 3; edits++) { /* `h` goes, ` world!` and `J` come */
        WANT(put(&overlay), SAM_PUT_EDIT);
        WANT(sam_overlay_bring(&overlay, NULL, 0), SAM_WAITING);
        WANT(event_of(&overlay, SAM_EVENT_FLUSH, 0, 0, 0), SAM_WAITING);
        WANT(sam_overlay_replace(&overlay, 1, 0, 0, BYTES("x")), SAM_NO_MEMORY);
        quiet_step(&overlay, SAM_STEP_ACTED);
        go_on(&overlay);
        shows(&overlay, 1, "Jello world!");
    }
    WANT(put(&overlay), SAM_PUT_NOTHING);
    WANT(waiting(&overlay), 0);
    settle(&overlay, &host);
    same_text(&host, 1, "Jello world!");
    free_both(&host, &overlay);
}

/* ---- What the host does under edits that wait ---- */

/* How many messages were composed: a frame that answers the last has this stamp. */
static uint8_t sent(sam_overlay *overlay)
{
    sam_state state;
    WANT(READ(sam_overlay_state(overlay, &state)), SAM_OK);
    return (uint8_t)state.sent;
}

static void tell(sam_overlay *overlay, uint8_t *frame, size_t len)
{
    frame[LAST_OF_STAMP] = sent(overlay);
    WANT(sam_overlay_bring(overlay, frame, len), SAM_OK);
}

/* Under the lock of a write, which nobody answers, the host's changes go through what waits. */
static void host_changes(void)
{
    static uint8_t comes[] = "\x4D\0\x11" STAMP TAG PLACE("\5") "<->", goes[] = "\x51\0\x12" STAMP TAG PLACE("\1") PLACE("\6");
    static uint8_t grows[] = "\x46\0\x12" STAMP TAG PLACE("\2") PLACE("\2"), loads[] = "\x49\0\x10" STAMP TAG PLACE("\2") "yz";
    sam_host host = SAM_HOST_INIT;
    sam_overlay overlay = SAM_OVERLAY_INIT;
    sam_did did;
    uint32_t gap = 0;
    open_both(&host, &overlay, "hello", true);
    WANT(event_of(&overlay, SAM_EVENT_WRITE, 1, 0, 0), SAM_OK);
    go_on(&overlay);
    WANT(sam_overlay_replace(&overlay, 1, 5, 5, BYTES("!")), SAM_OK);
    WANT(sam_overlay_replace(&overlay, 1, 2, 2, BYTES("?")), SAM_OK);
    shows(&overlay, 1, "he?llo!");
    tell(&overlay, comes, sizeof comes - 1); /* behind `hello`, so before what was typed there */
    WANT(sam_overlay_step(&overlay, &did), SAM_OK);
    WANT(did.step == SAM_STEP_RECEIVED && did.kind == SAM_KIND_HGROWDATA && did.start == 5 && did.came == 3, 1);
    WANT(sam_overlay_step(&overlay, &did), SAM_WAITING);
    WANT(sam_overlay_replace(&overlay, 1, 0, 0, BYTES("x")), SAM_WAITING);
    WANT(sam_overlay_replace(&overlay, 1, 0, 0, BYTES("\xFF")), SAM_NOT_TEXT);
    wants_splice(&overlay, SAM_SPLICE_CAME, 6, 3);
    shows(&overlay, 1, "he?llo<->!");
    go_on(&overlay);
    tell(&overlay, goes, sizeof goes - 1); /* what waits between stays */
    WANT(sam_overlay_step(&overlay, &did), SAM_OK);
    wants_splice(&overlay, SAM_SPLICE_WENT, 3, 5);
    wants_splice(&overlay, SAM_SPLICE_WENT, 1, 1);
    shows(&overlay, 1, "h?>!");
    go_on(&overlay);
    tell(&overlay, grows, sizeof grows - 1);
    WANT(sam_overlay_step(&overlay, &did), SAM_OK);
    wants_splice(&overlay, SAM_SPLICE_CAME, 3, 2);
    shows(&overlay, 1, "h?>__!");
    go_on(&overlay);
    WANT(sam_overlay_replace(&overlay, 1, 4, 4, BYTES("|")), SAM_OK);
    shows(&overlay, 1, "h?>_|_!");
    WANT(READ(sam_overlay_first_gap(&overlay, 1, 0, &gap)), SAM_OK);
    WANT(gap, 3);
    WANT(READ(sam_overlay_first_gap(&overlay, 1, 4, &gap)), SAM_OK);
    WANT(gap, 5);
    WANT(READ(sam_overlay_first_gap(&overlay, 1, 6, &gap)), SAM_NONE);
    tell(&overlay, loads, sizeof loads - 1);
    WANT(sam_overlay_step(&overlay, &did), SAM_OK);
    WANT(did.loads, true);
    wants_splice(&overlay, SAM_SPLICE_FILLED, 5, 1);
    wants_splice(&overlay, SAM_SPLICE_FILLED, 3, 1);
    shows(&overlay, 1, "h?>y|z!");
    free_both(&host, &overlay);
}

/* The host leaves no room for what waits: all of it comes back, once a buffer has room for all of it. */
static void taken_back(void)
{
    static uint8_t grows[] = "\x46\0\x12" STAMP TAG PLACE("\2") "\0\x0F\x42\x3B"; /* by 999,995 */
    sam_host host = SAM_HOST_INIT;
    sam_overlay overlay = SAM_OVERLAY_INIT;
    sam_did did;
    sam_put put = SAM_PUT_WIDTH;
    sam_splice splice = {.count = 9};
    uint8_t bytes[ROOM] = "unused";
    size_t len = 7;
    open_both(&host, &overlay, "hello", true);
    WANT(sam_overlay_drop_next(&overlay, 1, &splice, bytes, 0, &len), SAM_NONE);
    WANT(sam_overlay_replace(&overlay, 1, 5, 5, BYTES("w\xC3\xB6")), SAM_OK);
    WANT(sam_overlay_drop_next(&overlay, 1, &splice, bytes, 8, &len), SAM_NONE);
    tell(&overlay, grows, sizeof grows - 1);
    WANT(sam_overlay_step(&overlay, &did), SAM_OK);
    WANT(sam_overlay_drop_next(&overlay, 1, &splice, bytes, 0, &len), SAM_WAITING);
    wants_splice(&overlay, SAM_SPLICE_CAME, 2, 999995);
    go_on(&overlay);
    WANT(sam_overlay_put_next(&overlay, 1, &put), SAM_REFUSAL_TOO_LONG);
    WANT(sam_overlay_drop_next(&overlay, 1, &splice, bytes, 7, &len), SAM_NO_ROOM);
    WANT(splice.count == 9 && len == 7 && memcmp(bytes, "unused", 7) == 0, 1);
    WANT(waiting(&overlay), 2);
    WANT(sam_overlay_drop_next(&overlay, 1, &splice, bytes, 8, &len), SAM_OK);
    WANT(splice.kind == SAM_SPLICE_WENT && splice.place == 1000000 && splice.count == 2 && splice.tag == 1, 1);
    WANT(len == 3 && memcmp(bytes, "w\xC3\xB6sed", 7) == 0, 1);
    WANT(waiting(&overlay), 0);
    WANT(READ(sam_overlay_len(&overlay, 1, &splice.count)), SAM_OK);
    WANT(splice.count, 1000000);
    WANT(sam_overlay_drop_next(&overlay, 1, &splice, bytes, 8, &len), SAM_NONE);
    WANT(sam_overlay_put_next(&overlay, 1, &put), SAM_OK);
    WANT(put, SAM_PUT_NOTHING);
    free_both(&host, &overlay);
}

/* ---- The command file ---- */

/* What is typed there is shown once it acts, and a splice tells of it: runes go, and others come in their place. */
static void command_file(void)
{
    sam_host host = SAM_HOST_INIT;
    sam_overlay overlay = SAM_OVERLAY_INIT;
    sam_event event = {.kind = SAM_EVENT_TYPE_CMD, .tag = 9};
    sam_did did;
    sam_splice splice;
    open_both(&host, &overlay, "hello", true);
    WANT(event_of(&overlay, SAM_EVENT_OPEN_CMD, 0, 0, 0), SAM_OK);
    settle(&overlay, &host);
    WANT(sam_overlay_bring_event(&overlay, &event, BYTES("abc")), SAM_OK);
    WANT(sam_overlay_step(&overlay, &did), SAM_OK);
    WANT(did.step, SAM_STEP_ACTED);
    WANT(READ(sam_overlay_next_splice(&overlay, &splice)), SAM_OK);
    WANT(splice.kind == SAM_SPLICE_WENT && splice.place == 0 && splice.count == 0 && splice.tag == 0, 1);
    WANT(READ(sam_overlay_next_splice(&overlay, &splice)), SAM_OK);
    WANT(splice.kind == SAM_SPLICE_CAME && splice.place == 0 && splice.count == 3 && splice.tag == 0, 1);
    shows(&overlay, 0, "abc");
    settle(&overlay, &host);
    WANT(event_of(&overlay, SAM_EVENT_SELECT, 0, 1, 3), SAM_OK);
    go_on(&overlay);
    WANT(event_of(&overlay, SAM_EVENT_CUT_CMD, 9, 0, 0), SAM_OK);
    settle(&overlay, &host);
    shows(&overlay, 0, "a");
    WANT(event_of(&overlay, SAM_EVENT_PASTE_CMD, 9, 0, 0), SAM_OK);
    settle(&overlay, &host);
    shows(&overlay, 0, "abc");
    same_text(&host, 0, "abc");
    free_both(&host, &overlay);
}

/* A file that is closed is empty, and what waited over it is gone: the user closed it. */
static void closed(void)
{
    sam_host host = SAM_HOST_INIT;
    sam_overlay overlay = SAM_OVERLAY_INIT;
    sam_did did;
    uint32_t runes = 5;
    open_both(&host, &overlay, "hello", true);
    WANT(event_of(&overlay, SAM_EVENT_CLOSE, 1, 0, 0), SAM_OK);
    go_on(&overlay);
    WANT(sam_overlay_replace(&overlay, 1, 0, 0, BYTES("x")), SAM_OK);
    up(&overlay, &host);
    bring_down(&overlay, &host);
    do
        WANT(sam_overlay_step(&overlay, &did), SAM_OK);
    while (did.kind != SAM_KIND_HCLOSE && did.kind != SAM_KIND_HDELNAME);
    wants_splice(&overlay, SAM_SPLICE_EMPTIED, 0, 0);
    settle(&overlay, &host);
    WANT(READ(sam_overlay_len(&overlay, 1, &runes)), SAM_NONE);
    WANT(runes, 5);
    WANT(waiting(&overlay), 0);
    free_both(&host, &overlay);
}

/* ---- Refusals ---- */

static void refused(void)
{
    static uint8_t million[1000001];
    sam_host host = SAM_HOST_INIT;
    sam_overlay overlay = SAM_OVERLAY_INIT;
    sam_event event = {.kind = SAM_EVENT_SET_SNARF};
    uint64_t number = 0;
    sam_status why = SAM_OK;
    open_both(&host, &overlay, "hello", true);
    WANT(sam_overlay_replace(&overlay, 9, 0, 0, BYTES("\xFF")), SAM_NOT_TEXT);
    WANT(sam_overlay_replace(&overlay, 9, 0, 0, BYTES("x")), SAM_REFUSAL_NO_FILE);
    WANT(event_of(&overlay, SAM_EVENT_OPEN_CMD, 0, 0, 0), SAM_OK);
    settle(&overlay, &host);
    WANT(sam_overlay_replace(&overlay, 0, 9, 0, BYTES("x")), SAM_REFUSAL_COMMAND_FILE);
    WANT(sam_overlay_replace(&overlay, 1, 3, 2, BYTES("x")), SAM_REFUSAL_BAD_POSITION);
    WANT(sam_overlay_replace(&overlay, 1, 3, 6, BYTES("x")), SAM_REFUSAL_BAD_POSITION);
    memset(million, 'm', sizeof million);
    WANT(sam_overlay_replace(&overlay, 1, 0, 5, million, sizeof million - 1), SAM_REFUSAL_TOO_LONG);
    shows(&overlay, 1, "hello");
    WANT(sam_overlay_bring_event(&overlay, &event, BYTES("\xFF")), SAM_NOT_TEXT);
    event.kind = 0;
    WANT(sam_overlay_bring_event(&overlay, &event, NULL, 0), SAM_NONE);
    event.kind = (sam_event_kind)(SAM_EVENT_PASTE_CMD + 1);
    WANT(sam_overlay_bring_event(&overlay, &event, NULL, 0), SAM_NONE);
    WANT(READ(sam_overlay_next_refusal(&overlay, &number, &why)), SAM_NONE);
    WANT(event_of(&overlay, SAM_EVENT_SELECT, 1, 3, 9), SAM_OK);
    go_on(&overlay);
    WANT(READ(sam_overlay_next_refusal(&overlay, &number, &why)), SAM_OK);
    WANT(why, SAM_REFUSAL_BAD_POSITION);
    WANT(READ(sam_overlay_finish(&overlay)), SAM_OK);
    WANT(READ(sam_overlay_fault_place(&overlay, &number)), SAM_NONE);
    WANT(event_of(&overlay, SAM_EVENT_EXIT, 0, 0, 0), SAM_OK);
    settle(&overlay, &host);
    WANT(sam_overlay_replace(&overlay, 9, 0, 0, BYTES("x")), SAM_REFUSAL_EXITED);
    free_both(&host, &overlay);
}

/* A file that is known and not open, and a stream that is wrong. */
static void stopped(void)
{
    sam_host host = SAM_HOST_INIT;
    sam_overlay overlay = SAM_OVERLAY_INIT;
    sam_did did;
    uint16_t tag = 0;
    uint64_t place = 0;
    sam_put put = SAM_PUT_EDIT;
    sam_turn turn = SAM_TURN_REQUEST;
    open_both(&host, &overlay, "hello", true);
    WANT(sam_host_add_file(&host, BYTES("b"), BYTES(""), &tag), SAM_OK);
    WANT(event_of(&overlay, SAM_EVENT_OFFER_VERSION, 0, 0, 0), SAM_OK);
    settle(&overlay, &host);
    WANT(sam_overlay_replace(&overlay, tag, 0, 0, BYTES("x")), SAM_REFUSAL_NOT_OPEN);
    WANT(sam_overlay_bring(&overlay, BYTES("\x49\0")), SAM_OK);
    go_on(&overlay);
    WANT(READ(sam_overlay_finish(&overlay)), SAM_TRUNCATED);
    WANT(sam_overlay_bring(&overlay, BYTES("\0")), SAM_OK);
    WANT(sam_overlay_step(&overlay, &did), SAM_BAD_LENGTH);
    WANT(sam_overlay_step(&overlay, &did), SAM_BAD_LENGTH);
    WANT(sam_overlay_bring(&overlay, NULL, 0), SAM_BAD_LENGTH);
    WANT(READ(sam_overlay_finish(&overlay)), SAM_BAD_LENGTH);
    WANT(event_of(&overlay, SAM_EVENT_FLUSH, 0, 0, 0), SAM_BAD_LENGTH);
    WANT(sam_overlay_replace(&overlay, 9, 0, 0, BYTES("x")), SAM_BAD_LENGTH);
    WANT(sam_overlay_put_next(&overlay, 1, &put), SAM_BAD_LENGTH);
    WANT(put, SAM_PUT_EDIT);
    WANT(sam_overlay_act_next(&overlay, &turn), SAM_BAD_LENGTH);
    WANT(turn, SAM_TURN_REQUEST);
    WANT(READ(sam_overlay_fault_place(&overlay, &place)), SAM_OK);
    shows(&overlay, 1, "hello");
    free_both(&host, &overlay);
}

/* ---- Readers ---- */

static void readers(void)
{
    sam_host host = SAM_HOST_INIT;
    sam_overlay overlay = SAM_OVERLAY_INIT;
    sam_event event = {.kind = SAM_EVENT_SET_SNARF};
    uint8_t bytes[ROOM];
    uint32_t runes = 0, number = 0;
    uint16_t tag = 7;
    size_t len = 0;
    open_both(&host, &overlay, "h\xC3\xA9llo", false);
    shows(&overlay, 1, "_____");
    WANT(READ(sam_overlay_first_gap(&overlay, 1, 2, &number)), SAM_OK);
    WANT(number, 2);
    WANT(READ(sam_overlay_first_gap(&overlay, 1, 5, &number)), SAM_NONE);
    WANT(READ(sam_overlay_first_gap(&overlay, 9, 0, &number)), SAM_NONE);
    WANT(READ(sam_overlay_next_waiting(&overlay, 0, &tag)), SAM_NONE);
    WANT(number == 2 && tag == 7, 1);
    number = 0;
    WANT(READ(sam_overlay_name(&overlay, 1, bytes, sizeof bytes, &len)), SAM_OK);
    WANT(len == 1 && bytes[0] == 'a', 1);
    WANT(READ(sam_overlay_name(&overlay, 9, bytes, sizeof bytes, &len)), SAM_NONE);
    WANT(READ(sam_overlay_current(&overlay, &tag)), SAM_NONE);
    WANT(event_of(&overlay, SAM_EVENT_NEW_FILE, 0, 0, 0), SAM_OK);
    settle(&overlay, &host);
    WANT(READ(sam_overlay_current(&overlay, &tag)), SAM_OK);
    WANT(tag, 2);
    WANT(READ(sam_overlay_len(&overlay, 9, &number)), SAM_NONE);
    WANT(READ(sam_overlay_text(&overlay, 9, 0, bytes, sizeof bytes, &len, &runes)), SAM_NONE);
    WANT(READ(sam_overlay_read(&overlay, 9, 0, &number, 1, &runes)), SAM_NONE);
    WANT(event_of(&overlay, SAM_EVENT_VIEW, 1, 0, 3), SAM_OK);
    settle(&overlay, &host);
    WANT(sam_overlay_replace(&overlay, 1, 1, 1, BYTES("\xE2\x82\xAC")), SAM_OK);
    WANT(READ(sam_overlay_next_waiting(&overlay, 1, &tag)), SAM_OK);
    WANT(tag, 1);
    WANT(READ(sam_overlay_next_waiting(&overlay, 2, &tag)), SAM_NONE);
    WANT(READ(sam_overlay_text(&overlay, 1, 0, bytes, sizeof bytes, &len, &runes)), SAM_OK);
    WANT(runes >= 4 && memcmp(bytes, "h\xE2\x82\xAC\xC3\xA9l", 7) == 0, 1);
    WANT(READ(sam_overlay_text(&overlay, 1, 1, bytes, 4, &len, &runes)), SAM_OK);
    WANT(len == 3 && runes == 1, 1);
    WANT(READ(sam_overlay_text(&overlay, 1, 99, bytes, sizeof bytes, &len, &runes)), SAM_OK);
    WANT(len == 0 && runes == 0, 1);
    WANT(READ(sam_overlay_read(&overlay, 1, 1, &number, 1, &runes)), SAM_OK);
    WANT(runes == 1 && number == 0x20AC, 1);
    WANT(sam_overlay_bring_event(&overlay, &event, BYTES("snarf")), SAM_OK);
    settle(&overlay, &host);
    WANT(event_of(&overlay, SAM_EVENT_GET_SNARF, 0, 0, 0), SAM_OK);
    settle(&overlay, &host);
    WANT(READ(sam_overlay_snarfed(&overlay, 1, bytes, sizeof bytes, &len, &runes)), SAM_OK);
    WANT(len == 4 && runes == 4 && memcmp(bytes, "narf", 4) == 0, 1);
    WANT(event_of(&overlay, SAM_EVENT_SELECT, 1, 0, 1), SAM_OK);
    settle(&overlay, &host);
    WANT(event_of(&overlay, SAM_EVENT_LOOK, 1, 0, 0), SAM_OK);
    settle(&overlay, &host);
    WANT(READ(sam_overlay_pattern(&overlay, bytes, sizeof bytes, &len)), SAM_OK);
    WANT(len == 1 && bytes[0] == 'h', 1);
    free_both(&host, &overlay);
}

int main(void)
{
    sam_overlay empty = SAM_OVERLAY_INIT;
    long out = blocks;
    no_handles(NULL);
    WANT(sam_overlay_new(NULL), SAM_NO_HANDLE);
    no_handles(&empty);
    typed_under_a_lock();
    host_changes();
    taken_back();
    command_file();
    closed();
    refused();
    stopped();
    readers();
    WANT(blocks, out);
    puts("each call of an overlay is right");
    return 0;
}
