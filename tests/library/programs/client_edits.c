/*
 * client_edits: what the host does under edits that wait, and many edits by one call; see client.c. It ends with status 0, or 1 and the
 * line that failed.
 */
#include "client_session.h"

/* What is shown of a file is this text in UTF-8, all of it loaded. */
static void shows_utf8(uint16_t tag, const char *utf8)
{
    uint8_t bytes[ROOM];
    uint32_t runes = 0;
    size_t len = 0;
    WANT(READ(sam_client_text(&client, tag, 0, bytes, sizeof bytes, &len, &runes)), SAM_OK);
    WANT(len, strlen(utf8));
    WANT(memcmp(bytes, utf8, len), 0);
}

/* ---- What the host does under edits that wait ---- */

/* The client goes on, and nothing that is shown changes. */
static void go_on_alone(void)
{
    sam_client_event told = SAM_CLIENT_BUSY;
    sam_splice splice;
    sam_did did;
    while (told != SAM_CLIENT_IDLE) {
        WANT(sam_client_next_event(&client, now, &told, &did), SAM_OK);
        WANT(READ(sam_client_next_splice(&client, &splice)), SAM_NONE);
    }
}

/* Under the lock of a write, which nobody answers, the host's changes go through what waits. While splices are left, nothing is done. */
static void host_changes(void)
{
    static uint8_t comes[] = "\x4D\0\x11" STAMP TAG PLACE("\5") "<->", goes[] = "\x51\0\x12" STAMP TAG PLACE("\1") PLACE("\6");
    uint8_t bytes[ROOM] = "unused";
    sam_did did = {.event = 8};
    sam_client_event told = SAM_CLIENT_WIDTH;
    sam_splice splice = {.count = 9};
    size_t len = 7;
    open_both("hello", true);
    WANT(ask_for(SAM_EVENT_WRITE, 1, 0, 0), SAM_OK);
    go_on();
    WANT(sam_client_replace(&client, 1, 5, 5, BYTES("!")), SAM_OK);
    WANT(sam_client_replace(&client, 1, 2, 2, BYTES("?")), SAM_OK);
    shows(1, "he?llo!");
    tell(comes, sizeof comes - 1); /* behind `hello`, so before what was typed there */
    did = steps(SAM_CLIENT_STEPPED);
    WANT(did.step == SAM_STEP_RECEIVED && did.kind == SAM_KIND_HGROWDATA && did.start == 5 && did.came == 3, 1);
    did.event = 8;
    WANT(sam_client_next_event(&client, now, &told, &did), SAM_WAITING);
    WANT(told == SAM_CLIENT_WIDTH && did.event == 8, 1);
    WANT(sam_client_replace(&client, 1, 0, 0, BYTES("x")), SAM_WAITING);
    WANT(sam_client_replace(&client, 1, 0, 0, BYTES("\xFF")), SAM_NOT_TEXT);
    WANT(sam_client_drop_next(&client, 1, &splice, bytes, 0, &len), SAM_WAITING);
    WANT(splice.count == 9 && len == 7 && memcmp(bytes, "unused", 7) == 0, 1);
    wants_splice(SAM_SPLICE_CAME, 6, 3, 1);
    WANT(READ(sam_client_next_splice(&client, &splice)), SAM_NONE);
    WANT(splice.count, 9);
    shows(1, "he?llo<->!");
    tell(goes, sizeof goes - 1); /* what waits between stays */
    WANT(steps(SAM_CLIENT_STEPPED).kind, SAM_KIND_HCUT);
    wants_splice(SAM_SPLICE_WENT, 3, 5, 1);
    wants_splice(SAM_SPLICE_WENT, 1, 1, 1);
    shows(1, "h?>!");
    WANT(steps(SAM_CLIENT_IDLE).step, SAM_STEP_IDLE);
    free_both();
}

/* The host leaves no room for what waits: all of it comes back, once a buffer has room for all of it. */
static void taken_back(void)
{
    static uint8_t grows[] = "\x46\0\x12" STAMP TAG PLACE("\2") "\0\x0F\x42\x3B", frees[] = "\x4B\0\x0A" STAMP TAG; /* by 999,995 */
    sam_splice splice = {.count = 9};
    uint8_t bytes[ROOM] = "unused";
    size_t len = 7;
    open_both("hello", true);
    WANT(ask_for(SAM_EVENT_VIEW, 1, 0, 0), SAM_OK); /* so that no gap is asked for */
    settle();
    WANT(sam_client_drop_next(&client, 1, &splice, bytes, 0, &len), SAM_NONE);
    WANT(ask_for(SAM_EVENT_WRITE, 1, 0, 0), SAM_OK);
    go_on();
    WANT(sam_client_replace(&client, 1, 5, 5, BYTES("w\xC3\xB6")), SAM_OK);
    WANT(sam_client_drop_next(&client, 1, &splice, bytes, 8, &len), SAM_NONE); /* the file is not free */
    tell(grows, sizeof grows - 1);
    steps(SAM_CLIENT_STEPPED);
    wants_splice(SAM_SPLICE_CAME, 2, 999995, 1);
    tell(frees, sizeof frees - 1);
    WANT(steps(SAM_CLIENT_STEPPED).kind, SAM_KIND_HUNLOCKFILE);
    go_on_alone();
    WANT(sam_client_drop_next(&client, 1, &splice, bytes, 7, &len), SAM_NO_ROOM);
    WANT(splice.count == 9 && len == 7 && memcmp(bytes, "unused", 7) == 0, 1);
    WANT(waiting(), 2);
    WANT(sam_client_drop_next(&client, 1, &splice, bytes, 8, &len), SAM_OK);
    WANT(splice.kind == SAM_SPLICE_WENT && splice.place == 1000000 && splice.count == 2 && splice.tag == 1, 1);
    WANT(len == 3 && memcmp(bytes, "w\xC3\xB6sed", 7) == 0, 1);
    WANT(waiting(), 0);
    WANT(READ(sam_client_len(&client, 1, &splice.count)), SAM_OK);
    WANT(splice.count, 1000000);
    WANT(sam_client_drop_next(&client, 1, &splice, bytes, 8, &len), SAM_NONE);
    free_both();
}

/* ---- Many by one call ---- */

static void each(const sam_replacement *rows, size_t count, const char *text, sam_status status, size_t wanted)
{
    size_t made = 7;
    WANT(sam_client_replace_each(&client, 1, rows, count, (const uint8_t *)text, strlen(text), &made), status);
    WANT(made, wanted);
}

/* Places are those of what the replacements before have left. Those before one that is refused are made. */
static void replaced_each(void)
{
    static const sam_replacement rows[] = {{4, 5, 2}, {1, 2, 0}, {0, 0, 1}}, beyond[] = {{5, 5, 1}, {9, 9, 1}, {0, 0, 1}};
    static const uint32_t came[] = {0xF6, '!', 'J', 'x'};
    static uint8_t comes[] = "\x4D\0\x11" STAMP TAG PLACE("\5") "<->";
    open_both("hello", true);
    WANT(ask_for(SAM_EVENT_WRITE, 1, 0, 0), SAM_OK);
    go_on();
    each(rows, 3, "\xC3\xB6!J", SAM_OK, 3);
    shows_utf8(1, "Jhll\xC3\xB6!");
    each(beyond, 3, "xyz", SAM_REFUSAL_BAD_POSITION, 1);
    shows_utf8(1, "Jhll\xC3\xB6x!");
    each(rows, 3, "xy", SAM_NOT_TEXT, 0); /* too few runes, and too many */
    each(rows, 3, "wxyz", SAM_NOT_TEXT, 0);
    each(rows, 3, "\xFFyz", SAM_NOT_TEXT, 0);
    each(NULL, 0, "", SAM_OK, 0);
    shows_utf8(1, "Jhll\xC3\xB6x!");
    change(&copy, 4, 1, came, 2);
    change(&copy, 1, 1, NULL, 0);
    change(&copy, 0, 0, came + 2, 1);
    change(&copy, 5, 0, came + 3, 1);
    settle();
    same_text(&host, 1, "Jhll\xC3\xB6x!");
    tell(comes, sizeof comes - 1);
    steps(SAM_CLIENT_STEPPED);
    each(rows, 3, "wxyz", SAM_NOT_TEXT, 0);
    each(rows, 3, "xyz", SAM_WAITING, 0); /* a splice is left */
    free_both();
}

enum { MOST_CHANGES = 8, ROOM_FOR_RUNES = 600 };
static sam_splice splices[MOST_CHANGES];
static uint32_t brought[ROOM_FOR_RUNES];
static sam_changes changes;

/* The steps that follow are edits, so many splices are handed out with so many runes, and then this is told. */
static sam_did edits(size_t most, size_t room, size_t got, const char *came, sam_client_event event)
{
    sam_client_event told = SAM_CLIENT_WIDTH;
    sam_did did = {.event = 8};
    changes = (sam_changes){.splices = splices, .most = most, .got = 9, .runes = brought, .room = room, .used = 9};
    WANT(sam_client_step_edits(&client, now, &changes, &told, &did), SAM_OK);
    WANT(told, event);
    WANT(changes.got, got);
    WANT(changes.used, strlen(came));
    for (size_t at = 0; at < changes.used; at++)
        WANT(brought[at], (uint32_t)came[at]);
    return did;
}

static void has_splice(size_t at, sam_splice_kind kind, uint32_t place, uint32_t count)
{
    WANT(splices[at].kind == kind && splices[at].place == place && splices[at].count == count && splices[at].tag == 1, 1);
}

/* The host's edits under the lock of a write, as in host_changes. */
static void tell_edits(void)
{
    static uint8_t comes[] = "\x4D\0\x11" STAMP TAG PLACE("\5") "<->", goes[] = "\x51\0\x12" STAMP TAG PLACE("\1") PLACE("\6");
    open_both("hello", true);
    WANT(ask_for(SAM_EVENT_WRITE, 1, 0, 0), SAM_OK);
    go_on();
    WANT(sam_client_replace(&client, 1, 5, 5, BYTES("!")), SAM_OK);
    WANT(sam_client_replace(&client, 1, 2, 2, BYTES("?")), SAM_OK);
    tell(comes, sizeof comes - 1);
    tell(goes, sizeof goes - 1);
}

static void many_edits(void)
{
    static uint8_t frees[] = "\x4B\0\x0A" STAMP TAG;
    sam_client_event told = SAM_CLIENT_WIDTH;
    sam_did did = {.event = 8};
    tell_edits();
    tell(frees, sizeof frees - 1);
    did = edits(MOST_CHANGES, ROOM_FOR_RUNES, 3, "<->", SAM_CLIENT_STEPPED); /* what is no edit ends it */
    WANT(did.kind, SAM_KIND_HUNLOCKFILE);
    has_splice(0, SAM_SPLICE_CAME, 6, 3);
    has_splice(1, SAM_SPLICE_WENT, 3, 5);
    has_splice(2, SAM_SPLICE_WENT, 1, 1);
    shows(1, "h?>!");
    edits(MOST_CHANGES, ROOM_FOR_RUNES, 0, "", SAM_CLIENT_BUSY); /* what was typed acts, which makes no splice */
    edits(MOST_CHANGES, ROOM_FOR_RUNES, 0, "", SAM_CLIENT_IDLE);
    WANT(waiting(), 0);
    free_both();

    tell_edits();
    did = edits(2, ROOM_FOR_RUNES, 2, "<->", SAM_CLIENT_STEPPED); /* no room amid a step */
    WANT(did.kind, SAM_KIND_HCUT);
    WANT(sam_client_step_edits(&client, now, &changes, &told, &did), SAM_WAITING);
    WANT(changes.got == 0 && changes.used == 0, 1);
    wants_splice(SAM_SPLICE_WENT, 1, 1, 1);
    edits(2, ROOM_FOR_RUNES, 0, "", SAM_CLIENT_IDLE);
    free_both();

    tell_edits();
    edits(0, ROOM_FOR_RUNES, 0, "", SAM_CLIENT_BUSY);
    edits(MOST_CHANGES, 511, 0, "", SAM_CLIENT_BUSY); /* a frame may bring 512 runes */
    did = edits(MOST_CHANGES, 512, 1, "<->", SAM_CLIENT_STEPPED);
    WANT(did.kind, SAM_KIND_HGROWDATA);
    edits(MOST_CHANGES, 512, 2, "", SAM_CLIENT_BUSY);
    edits(MOST_CHANGES, 512, 0, "", SAM_CLIENT_IDLE);
    free_both();
}

/* A stretch that is loaded is handed out with its runes, that of a text which is open already. */
static void many_loads(void)
{
    static uint8_t loads[] = "\x49\0\x11" STAMP TAG PLACE("\1") "ell";
    open_both("hello", false);
    tell(loads, sizeof loads - 1);
    edits(MOST_CHANGES, ROOM_FOR_RUNES, 1, "ell", SAM_CLIENT_BUSY);
    has_splice(0, SAM_SPLICE_FILLED, 1, 3);
    free_both();
}

int main(void)
{
    host_changes();
    taken_back();
    replaced_each();
    many_edits();
    many_loads();
    WANT((unsigned long)blocks, 0);
    puts("what a client does with the host's edits is right");
    return 0;
}
