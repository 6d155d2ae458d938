/*
 * pair.h: a host and a terminal in one process, joined by byte pipes that are cut at random places. What random.c and each.c share.
 *
 * A call that wants memory is made again, so a program prints the same whichever request for memory was refused. To the file that $SEEN
 * names it adds a line for each call and status by which it met that memory was out; with $AGAIN it prints how often.
 * A program ends with status 0, or 1 and a line that says what is wrong.
 */
#ifndef PAIR_H
#define PAIR_H

#include "sides.h"

enum { FILES = 4, PIECE = 64, PART = 512, COPIES = 32 };

/* The calls that may say that memory is out; those of the events together. */
enum call { HOST_NEW, TERM_NEW, ADD_FILE, HOST_FEED, TERM_FEED, HOST_FINISH, TERM_FINISH, EVENT, FLUSH_NOW, CHANGED, CALLS };
static const char *const call_names[CALLS] = {"sam_host_new",       "sam_term_new",    "sam_host_add_file", "sam_host_feed",
                                              "sam_term_feed",      "sam_host_finish", "sam_term_finish",   "an event",
                                              "sam_term_flush_now", "sam_term_changed"};

static uint64_t state;
static unsigned long sent_up, sent_down, again;
static bool seen[CALLS][2]; /* SAM_NO_MEMORY and SAM_UNFINISHED */

/* A number below `below`, by xorshift. */
static uint32_t pick(uint32_t below)
{
    state ^= state << 13;
    state ^= state >> 7;
    state ^= state << 17;
    return (uint32_t)(state >> 33) % below;
}

/* A call's status, which is noted where it says that memory is out. */
static sam_status noted(enum call call, sam_status status)
{
    if (status == SAM_NO_MEMORY || status == SAM_UNFINISHED) {
        seen[call][status == SAM_UNFINISHED] = true;
        again++;
    }
    return status;
}

/* Feeds bytes to a side: once more when it is out of memory, until they are taken, and then no bytes until nothing waits. */
static void feed_host(const uint8_t *bytes, size_t len)
{
    sam_status status;
    while ((status = noted(HOST_FEED, sam_host_feed(&host, bytes, len))) == SAM_NO_MEMORY)
        ;
    while (status == SAM_UNFINISHED || status == SAM_NO_MEMORY) {
        if (noted(HOST_FINISH, sam_host_finish(&host)) != SAM_UNFINISHED)
            fail("the host says that nothing waits", status);
        status = noted(HOST_FEED, sam_host_feed(&host, NULL, 0));
    }
    want("the host takes a piece", status);
}

/* The status of a call that may leave something waiting at the terminal, once nothing waits. */
static sam_status settle_term(enum call call, sam_status status)
{
    if (noted(call, status) != SAM_UNFINISHED)
        return status;
    do {
        uint64_t held = 0;
        want("held", sam_term_held(&term, &held));
        if (noted(TERM_FINISH, sam_term_finish(&term)) != SAM_UNFINISHED && held == 0)
            fail("the terminal says that nothing waits, of what came or was composed and of events", status);
        status = noted(TERM_FEED, sam_term_feed(&term, NULL, 0));
    } while (status == SAM_UNFINISHED || status == SAM_NO_MEMORY);
    return status;
}

static void feed_term(const uint8_t *bytes, size_t len)
{
    sam_status status;
    while ((status = settle_term(TERM_FEED, sam_term_feed(&term, bytes, len))) == SAM_NO_MEMORY)
        ;
    want("the terminal takes a piece", status);
}

/* What crosses one way: the kinds of the frames that have begun, whose bytes come in any pieces. */
struct way {
    uint8_t header[3];
    size_t have, left;
    bool kinds[256];
};
static struct way up, down;

static void note_frames(struct way *way, const uint8_t *bytes, size_t count)
{
    for (size_t i = 0; i < count; i++) {
        if (way->left > 0) {
            way->left--;
            continue;
        }
        way->header[way->have++] = bytes[i];
        if (way->have < sizeof way->header)
            continue;
        way->kinds[way->header[0]] = true;
        way->left = (size_t)way->header[1] << 8 | way->header[2];
        way->have = 0;
    }
}

/* Carries one piece of random length from the terminal to the host. */
static int carry_up(void)
{
    uint8_t piece[PIECE];
    size_t count = 0;
    want("the terminal's bytes", sam_term_take_out(&term, piece, 1 + pick(PIECE), &count));
    note_frames(&up, piece, count);
    if (count > 0)
        feed_host(piece, count);
    sent_up += count;
    return count > 0;
}

static int carry_down(void)
{
    uint8_t piece[PIECE];
    size_t count = 0;
    want("the host's bytes", sam_host_take_out(&host, piece, 1 + pick(PIECE), &count));
    note_frames(&down, piece, count);
    if (count > 0)
        feed_term(piece, count);
    sent_down += count;
    return count > 0;
}

/* What the user does. A number that is missing here is another of the kind before it, which is chosen more often. */
enum kind {
    TYPE = 0,
    SELECT = 4,
    CUT = 6,
    PASTE,
    SNARF,
    LOOK,
    SEARCH,
    SEND,
    DCLICK,
    SCROLL,
    VIEW,
    OPEN,
    CLOSE = 17,
    WRITE,
    WORK,
    CHECK,
    GET_SNARF,
    SET_SNARF,
    OFFER_VERSION,
    FLUSH,
    OPEN_CMD,
    NEW_FILE,
    LOAD,
    EDIT,
    FLUSH_NOW_EVENT = 30, /* sam_term_flush_now */
    KINDS,                /* those that are chosen at random */
    EXIT
};

/* One thing that the user does; SAM_NO_MEMORY where it was not taken. */
static sam_status do_event(uint32_t kind, uint16_t tag, uint32_t a, uint32_t b, const char *text)
{
    const uint8_t *bytes = (const uint8_t *)text;
    switch (kind) {
    case TYPE:
    case TYPE + 1:
    case TYPE + 2:
    case TYPE + 3:
        return sam_term_type(&term, tag, bytes, strlen(text));
    case SELECT:
    case SELECT + 1:
        return sam_term_select(&term, tag, a < b ? a : b, a < b ? b : a);
    case CUT:
        return sam_term_cut(&term, tag);
    case PASTE:
        return sam_term_paste(&term, tag);
    case SNARF:
        return sam_term_snarf(&term, tag);
    case LOOK:
        return sam_term_look(&term, tag);
    case SEARCH:
        return sam_term_search(&term, tag);
    case SEND:
        return sam_term_send(&term, tag);
    case DCLICK:
        return sam_term_dclick(&term, tag, a);
    case SCROLL:
        return sam_term_scroll(&term, tag, b % 9);
    case VIEW:
        return sam_term_view(&term, tag, a, 1 + b);
    case LOAD:
        return sam_term_load(&term, tag, a, 1 + b);
    case OPEN:
    case OPEN + 1:
        return sam_term_open(&term, tag);
    case CLOSE:
        return a < 4 ? sam_term_close(&term, tag) : sam_term_work(&term, tag);
    case WRITE:
        return sam_term_write(&term, tag);
    case WORK:
        return sam_term_work(&term, tag);
    case CHECK:
        return sam_term_check(&term, tag);
    case GET_SNARF:
        return sam_term_get_snarf(&term);
    case SET_SNARF:
        return sam_term_set_snarf(&term, bytes, strlen(text));
    case OFFER_VERSION:
        return sam_term_offer_version(&term, (uint16_t)(1 + a % 3));
    case FLUSH:
        return sam_term_flush(&term);
    case OPEN_CMD:
        return sam_term_open_cmd(&term);
    case NEW_FILE:
        return sam_term_new_file(&term);
    case EDIT:
    case EDIT + 1:
        return sam_term_edit(&term, tag, a < b ? a : b, a < b ? b : a, bytes, strlen(text));
    case EXIT:
        return sam_term_exit(&term);
    default:
        return sam_term_flush_now(&term);
    }
}

/* One thing that the user does, until it is taken. */
static void act(uint32_t kind, uint16_t tag, uint32_t a, uint32_t b, const char *text)
{
    enum call call = kind == FLUSH_NOW_EVENT ? FLUSH_NOW : EVENT;
    sam_status status;
    while ((status = settle_term(call, do_event(kind, tag, a, b, text))) == SAM_NO_MEMORY)
        ;
    want("an event", status);
}

static void drain(void)
{
    int more = 1;
    while (more) {
        sam_status status;
        while ((status = settle_term(FLUSH_NOW, sam_term_flush_now(&term))) == SAM_NO_MEMORY)
            ;
        want("the terminal is idle", status);
        more = carry_up();
        more |= carry_down();
    }
}

/* The next rune of UTF-8 that is known to be right. */
static uint32_t rune_at(const uint8_t **at)
{
    const uint8_t *p = *at;
    int more = p[0] < 0x80 ? 0 : p[0] < 0xE0 ? 1 : p[0] < 0xF0 ? 2 : 3;
    uint32_t rune = more == 0 ? p[0] : p[0] & (0x3FU >> more);
    for (int i = 1; i <= more; i++)
        rune = rune << 6 | (p[i] & 0x3FU);
    *at = p + 1 + more;
    return rune;
}

/* Whether each loaded rune of the file is the host's; answers how many are loaded. */
static unsigned long agree(uint16_t tag, uint32_t len)
{
    unsigned long loaded = 0;
    uint32_t place = 0;
    while (place < len) {
        uint8_t bytes[4 * PART];
        uint32_t runes[PART], count = 0, spelt = 0;
        size_t size = 0;
        want("the terminal's runes", sam_term_read(&term, tag, place, runes, PART, &count));
        want("the host's runes", sam_host_text(&host, tag, place, bytes, sizeof bytes, &size, &spelt));
        const uint8_t *at = bytes;
        if (spelt < count)
            fail("the host has fewer runes here", place);
        for (uint32_t i = 0; i < count; i++) {
            uint32_t rune = rune_at(&at);
            if (runes[i] != SAM_GAP && runes[i] != rune)
                fail("a loaded rune is not the host's", runes[i]);
            loaded += runes[i] != SAM_GAP;
        }
        if (count == 0)
            fail("no runes before the end", place);
        place += count;
    }
    return loaded;
}

/* A text of an open file as it was when its change was asked for last. */
struct copy {
    uint32_t runes[MOST];
    uint32_t len;
};
static struct copy copies[COPIES];

/* Changes the copy of a file by what sam_term_changed hands out, and compares it with the whole text. */
static void follow(uint16_t tag)
{
    static uint32_t now[MOST];
    struct copy *copy = &copies[tag];
    uint32_t start = 0, gone = 0, came = 0, len = 0, count = 0;
    sam_status status;
    while ((status = noted(CHANGED, sam_term_changed(&term, tag, &start, &gone, &came))) == SAM_NO_MEMORY)
        ;
    if (status == SAM_NONE)
        return;
    want("a change", status);
    want("a length", sam_term_len(&term, tag, &len));
    if (len > MOST)
        fail("a text is too long for this test", len);
    if (start + gone > copy->len || copy->len - gone + came != len)
        fail("a change doesn't fit", tag);
    memmove(copy->runes + start + came, copy->runes + start + gone, (copy->len - start - gone) * sizeof *copy->runes);
    want("what came", sam_term_read(&term, tag, start, copy->runes + start, came, &count));
    copy->len = len;
    want("the whole text", sam_term_read(&term, tag, 0, now, MOST, &count));
    if (count != len || memcmp(now, copy->runes, len * sizeof *now) != 0)
        fail("a copy that was kept by changes differs", tag);
}

static void follow_all(void)
{
    size_t tags = 0;
    want("tags", sam_term_tags(&term, &tags));
    for (uint16_t tag = 0; tag < tags && tag < COPIES; tag++)
        follow(tag);
}

/* A file is changed as the terminal has it if and only if it is dirty as the host has it. The command file is never dirty. */
static void compare_marks(uint16_t tag)
{
    bool changed = false, dirty = true;
    if (tag == 0)
        return;
    want("a mark of the terminal", sam_term_is_changed(&term, tag, &changed));
    want("a mark of the host", sam_host_is_dirty(&host, tag, &dirty));
    if (changed != dirty)
        fail("a file is changed on one side alone", tag);
}

static void compare(void)
{
    unsigned long loaded = 0, open = 0, all = 0;
    bool locked = true;
    uint64_t held = 1;
    size_t tags = 0;
    want("held", sam_term_held(&term, &held));
    if (held != 0)
        fail("events are held though nothing is on its way", (uint32_t)held);
    want("the terminal's stream may end", sam_host_finish(&host));
    want("the host's stream may end", sam_term_finish(&term));
    want("tags", sam_term_tags(&term, &tags));
    for (uint16_t tag = 0; tag < tags; tag++) {
        uint32_t mine = 0, theirs = 0;
        want("locks", sam_term_locked(&term, tag, &locked));
        if (locked)
            fail("a lock is held though nothing is on its way", tag);
        if (sam_term_len(&term, tag, &mine) != SAM_OK)
            continue;
        want("the host has an open file", sam_host_len(&host, tag, &theirs));
        if (mine != theirs)
            fail("the lengths of a file differ", tag);
        compare_marks(tag);
        loaded += agree(tag, mine);
        all += mine;
        open++;
    }
    printf("%lu files open, %lu of %lu runes loaded, all as the host has them\n", open, loaded, all);
}

/* Adds a file to the host, under the next tag. */
static void join(void)
{
    char name[16], text[64];
    uint16_t tag = 0;
    size_t next = 0;
    sam_status status;
    want("tags of the host", sam_host_tags(&host, &next));
    snprintf(name, sizeof name, "file %u", (unsigned)next);
    snprintf(text, sizeof text, "%u: all of the text \xE2\x86\x92 here\nand a second line\n", (unsigned)next);
    do
        status = sam_host_add_file(&host, (const uint8_t *)name, strlen(name), (const uint8_t *)text, strlen(text), &tag);
    while (noted(ADD_FILE, status) == SAM_NO_MEMORY);
    want("a file", status);
    if (tag != next)
        fail("the tag of a file", tag);
}

static void make(void)
{
    sam_status status;
    while ((status = noted(HOST_NEW, sam_host_new(&host))) == SAM_NO_MEMORY)
        ;
    want("a host", status);
    while ((status = noted(TERM_NEW, sam_term_new(&term))) == SAM_NO_MEMORY)
        ;
    want("a terminal", status);
    for (int i = 1; i <= FILES; i++)
        join();
}

/* Adds the calls that found memory short to the file that $SEEN names. */
static void write_seen(void)
{
    FILE *file = getenv("SEEN") ? fopen(getenv("SEEN"), "a") : NULL;
    for (int call = 0; file && call < CALLS; call++) {
        if (seen[call][0])
            fprintf(file, "%s: SAM_NO_MEMORY\n", call_names[call]);
        if (seen[call][1])
            fprintf(file, "%s: SAM_UNFINISHED\n", call_names[call]);
    }
    if (file && fclose(file) != 0)
        fail("$SEEN can't be written", 0);
}

/* Compares both sides, on which nothing may be unsent or under way, and frees them. */
static void end(void)
{
    follow_all();
    compare();
    want("free the host", sam_host_free(&host));
    want("free the terminal", sam_term_free(&term));
    write_seen();
    if (getenv("AGAIN"))
        printf("%lu calls made again, %lu bytes up, %lu down\n", again, sent_up, sent_down);
}

#endif
