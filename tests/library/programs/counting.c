/*
 * counting: how often calls ask for memory (counted.h), where the sources of the library say that they ask for none. Where two calls are
 * compared, one has what the other has, and more that takes none. What is freed is given back. It prints `right`.
 */
#include "counted.h"

#include "frames.h"

enum { RUNES = 1000, FEW = 100, TAGS = 9, ROOM = 4096 };

static void same(const char *what, unsigned long is, unsigned long should)
{
    if (is == should)
        return;
    printf("%s: %lu, and should be %lu\n", what, is, should);
    exit(1);
}

/* How often a side asks for memory as it takes this piece. What was pending is taken out before, so that its room is there. */
static unsigned long host_asks(const struct piece *piece)
{
    uint8_t bytes[ROOM];
    size_t count = 0;
    want("pending bytes", sam_host_take_out(&host, bytes, ROOM, &count));
    unsigned long before = asked;
    want("a piece of messages", sam_host_feed(&host, piece->bytes, piece->len));
    return asked - before;
}

static unsigned long term_asks(const struct piece *piece)
{
    uint8_t bytes[ROOM];
    size_t count = 0;
    want("pending bytes", sam_term_take_out(&term, bytes, ROOM, &count));
    unsigned long before = asked;
    want("a piece of frames", sam_term_feed(&term, piece->bytes, piece->len));
    return asked - before;
}

/* The pieces of one message or frame. */
static struct piece cut_of(uint16_t tag, uint32_t start, uint32_t end)
{
    struct piece piece = {0};
    add_message(&piece, TCUT, "244", tag, start, end);
    return piece;
}

static struct piece type_of(uint16_t tag, uint32_t place, const char *text)
{
    struct piece piece = {0};
    add_message(&piece, TTYPE, "24s", tag, place, text);
    return piece;
}

static struct piece told(unsigned kind, uint16_t tag)
{
    struct piece piece = {0};
    add_frame(&piece, kind, 0, "2", tag);
    return piece;
}

static struct piece told_range(unsigned kind, uint16_t tag, uint32_t place, uint32_t count)
{
    struct piece piece = {0};
    add_frame(&piece, kind, 0, "244", tag, place, count);
    return piece;
}

/* A host that shows file 1, of RUNES times `a`, and the command file, and works on file 1. */
static void show_host(void)
{
    uint8_t text[RUNES];
    uint16_t tag = 0;
    struct piece piece = {0};
    memset(text, 'a', RUNES);
    want("a host", sam_host_new(&host));
    want("a file", sam_host_add_file(&host, (const uint8_t *)"a", 1, text, RUNES, &tag));
    add_message(&piece, TSTARTFILE, "2", 1);
    add_message(&piece, TSTARTCMDFILE, "");
    add_message(&piece, TWORKFILE, "244", 1, 0, 0);
    host_asks(&piece);
}

/* A terminal that has a file of RUNES gaps open. */
static void open_gaps(uint16_t tag)
{
    struct piece grown = told_range(HGROW, tag, 0, RUNES), known = told(HNEWNAME, tag), bound = told(HBINDNAME, tag);
    term_asks(&known);
    same("a file is opened, which has no runes", term_asks(&bound), 1);
    term_asks(&grown);
}

static void free_both(void)
{
    want("free the host", sam_host_free(&host));
    want("free the terminal", sam_term_free(&term));
}

/* An empty terminal takes its own room alone: its lists are empty. A host's list of files has the command file, which has a name. */
static void make_both(void)
{
    unsigned long before = asked;
    want("a terminal", sam_term_new(&term));
    same("a terminal is made", asked - before, 1);
    before = asked;
    want("a host", sam_host_new(&host));
    same("a host is made", asked - before, 3);
    free_both();
}

/* Two edits in one piece take as much as one: the list of messages, and that of edits. The text is edited where it stands. */
static void edits(void)
{
    struct piece one = cut_of(1, 0, 1), two = cut_of(1, 0, 1);
    add_message(&two, TCUT, "244", 1, 0, 1);
    show_host();
    unsigned long alone = host_asks(&one);
    same("two edits in one piece, beside one", host_asks(&two), alone);
}

/* An edit by itself that fits in the room of its text takes as much where the room is just enough, and where it is ample: one more than a
 * cut, for its own runes. */
static void edit_alone(void)
{
    struct piece one = cut_of(1, 0, 1), typed = type_of(1, 0, "x");
    show_host();
    unsigned long cut = host_asks(&one);
    unsigned long just = host_asks(&typed);
    same("a rune that is typed, beside a cut", just, cut + 1);
    host_asks(&typed); /* for this one the text grows */
    same("a rune that has just the room, beside one of ample", just, host_asks(&typed));
}

/* A line halves the text, whose room is kept: what is typed then takes as much as where the same runes were cut before. */
static void room_after_line(void)
{
    char text[FEW + 1] = {0};
    memset(text, 'x', FEW);
    struct piece line = type_of(0, 0, ",x/aa/c/b/\n"), typed = type_of(1, 0, text), cut = cut_of(1, 0, FEW);
    uint32_t runes = 0;
    show_host();
    host_asks(&line);
    want("a length", sam_host_len(&host, 1, &runes));
    same("the line has halved the text", runes, RUNES / 2);
    unsigned long first = host_asks(&typed);
    host_asks(&cut);
    same("runes after a line, beside runes after a cut", first, host_asks(&typed));
}

/* Frames that open a file or set a dot take the list of frames alone. */
static void frames(void)
{
    struct piece one = told_range(HSETDOT, 1, 0, 1), two = one;
    add_frame(&two, HSETDOT, 0, "244", 1, 0, 2);
    want("a terminal", sam_term_new(&term));
    open_gaps(1);
    same("a dot is set", term_asks(&one), 1);
    same("a dot is set twice", term_asks(&two), 1);
}

/* An event that acts at once and composes nothing takes none, once there is room for an event that is held. */
static void event(void)
{
    want("a terminal", sam_term_new(&term));
    open_gaps(1);
    want("an event", sam_term_select(&term, 1, 0, 1));
    unsigned long before = asked;
    want("an event", sam_term_select(&term, 1, 0, 2));
    same("an event that composes nothing", asked - before, 0);
}

/* A note of what changed takes none, however many files are asked about. */
static void notes(void)
{
    want("a terminal", sam_term_new(&term));
    for (uint16_t tag = 1; tag <= TAGS; tag++) {
        struct piece dot = told_range(HSETDOT, tag, 0, 1), cut = told_range(HCUT, tag, 0, 1);
        uint32_t start = 0, gone = 0, came = 0;
        open_gaps(tag);
        unsigned long without = term_asks(&dot);
        want("a change", sam_term_changed(&term, tag, &start, &gone, &came));
        same("a cut that is noted, beside a dot", term_asks(&cut), without);
        want("a change", sam_term_changed(&term, tag, &start, &gone, &came));
        same("what is gone", gone, 1);
    }
}

static void (*const host_cases[])(void) = {edits, edit_alone, room_after_line};
static void (*const term_cases[])(void) = {frames, event, notes};

int main(void)
{
    setvbuf(stdout, NULL, _IONBF, 0);
    long out = blocks;
    make_both();
    for (size_t i = 0; i < sizeof host_cases / sizeof host_cases[0]; i++) {
        host_cases[i]();
        want("free the host", sam_host_free(&host));
        same("blocks are out after the host is freed", (unsigned long)blocks, (unsigned long)out);
    }
    for (size_t i = 0; i < sizeof term_cases / sizeof term_cases[0]; i++) {
        term_cases[i]();
        want("free the terminal", sam_term_free(&term));
        same("blocks are out after the terminal is freed", (unsigned long)blocks, (unsigned long)out);
    }
    printf("right\n");
    return 0;
}
