/*
 * refusing_term NAME: a case of a terminal, or of both sides, in which memory may be refused at any request (cases.h).
 */
#include "cases.h"

/* ---- Terminals to start with ---- */

/* The terminal opens a file of so many gaps. */
static void open_gaps(uint16_t tag, uint32_t gaps)
{
    TELL(HNEWNAME, 0, "2", tag);
    TELL(HBINDNAME, 0, "2", tag);
    if (gaps > 0)
        TELL(HGROW, 0, "244", tag, 0, gaps);
}

/* A terminal with a file of so many gaps. */
static void start_term(uint32_t gaps)
{
    make_term();
    open_gaps(1, gaps);
}

/* A terminal that shows five runes of so many. */
static void show_term(uint32_t runes, const char *text)
{
    start_term(runes);
    user(VIEW, 1, 0, 5, "");
    TELL(HDATA, 1, "24s", 1, 0, text);
    TELL(HUNLOCKFILE, 1, "2", 1);
}

static uint32_t term_len(void)
{
    uint32_t len = 0;
    want("a length", sam_term_len(&term, 1, &len));
    return len;
}

static uint32_t unsent(void)
{
    uint32_t runes = 0;
    want("unsent", sam_term_unsent(&term, &runes));
    return runes;
}

static bool is_locked(void)
{
    bool locked = false;
    want("locked", sam_term_locked(&term, 1, &locked));
    return locked;
}

/* ---- Messages and frames, written and read ---- */

static void type_hi(void)
{
    start_term(0);
    user(CHECK, 1, 0, 0, ""); /* some bytes stand before */
    user(TYPE, 1, 0, 0, "hi");
}

static void encode_t(void)
{
    type_hi();
    user(FLUSH_NOW, 0, 0, 0, "");
    want_pending(TERM, &typed);
}

/* The frame of `hi`, and that of its being cut. */
static const struct piece both = {{8, 0, 8, 0, 1, 0, 0, 0, 0, 0x68, 0x69, 9, 0, 10, 0, 1, 0, 0, 0, 0, 0, 0, 0, 2}, 24, 2};

/* All messages of an event are written, or none. */
static void encode_all(void)
{
    type_hi();
    user(EDIT, 1, 0, 2, "");
    want_pending(TERM, &both);
}

static void decode_h(void)
{
    start_term(3);
    user(CHECK, 1, 0, 0, "");
    user(CHECK, 1, 0, 0, "");
    want("a frame", fed(TERM, &given));
    want("the stream may end", sam_term_finish(&term));
    want_rasp(1, "ab_");
}

static void decode_bad_h(void)
{
    static const struct bad rows[] = {{0x08, "", 0, 0, SAM_BAD_KIND},
                                      {HDATA, "\0\0\0\0\0\0\0\2", 8, 0, SAM_BAD_LENGTH},
                                      {HDATA, "\0\0\0\0\0\0\0\2\0\1\0\0\0\0\xED\xA0\x80", 17, 0, SAM_BAD_TEXT},
                                      {HDATA, "", 0, 527, SAM_BAD_TEXT}};
    for (size_t i = 0; i < sizeof rows / sizeof rows[0]; i++) {
        struct piece piece = body_of(rows[i].kind, rows[i].bytes, rows[i].len, rows[i].more);
        start_term(0);
        want_refused(TERM, &piece, rows[i].why);
        want("free", sam_term_free(&term));
    }
}

/* ---- Rasps ---- */

static void grow(void)
{
    start_term(0);
    TELL(HGROW, 0, "244", 1, 0, 5);
    want_rasp(1, "_____");
}

static void data(void)
{
    start_term(5);
    TELL(HDATA, 0, "24s", 1, 2, "cd");
    want_rasp(1, "__cd_");
}

/* A rune is typed between a gap and a rune. */
static void type_in(void)
{
    data();
    TELL(HCUT, 0, "244", 1, 1, 2);
    want_rasp(1, "_d_");
    user(SELECT, 1, 1, 1, "");
    user(TYPE, 1, 0, 0, "x");
    want_rasp(1, "_xd_");
}

/* Two of 1,000,000 gaps become two runes, all or nothing. */
static void replace(void)
{
    uint32_t runes[3] = {0}, count = 0, gap = 0;
    start_term(1000000);
    user(EDIT, 1, 0, 2, "ab");
    want("the first runes", sam_term_read(&term, 1, 0, runes, 3, &count));
    want_number("the first rune", runes[0], 'a');
    want_number("the second rune", runes[1], 'b');
    want_number("the first gap", runes[2], SAM_GAP);
    want("the last gap", sam_term_first_gap(&term, 1, 999999, &gap));
    want_number("its place", gap, 999999);
    want_number("the length", term_len(), 1000000);
}

/* Two texts of 200 runes each are loaded, with a gap between them. */
static void load_apart(void)
{
    start_term(401);
    TELL(HDATA, 0, "24s", 1, 0, letters('a', 200));
    TELL(HDATA, 0, "24s", 1, 201, letters('b', 200));
}

static void want_at_200(uint32_t should, uint32_t len)
{
    uint32_t rune = 0, count = 0;
    want("a rune", sam_term_read(&term, 1, 200, &rune, 1, &count));
    want_number("the rune between the texts", rune, should);
    want_number("the length", term_len(), len);
}

/* A dot is set, by a frame of the length of one that cuts. */
static void apart(void)
{
    load_apart();
    TELL(HSETDOT, 0, "244", 1, 200, 201);
    want_at_200(SAM_GAP, 401);
}

/* The gap is cut out, which takes no memory: so this makes as many requests as `apart`. */
static void cut(void)
{
    load_apart();
    TELL(HCUT, 0, "244", 1, 200, 1);
    want_at_200('b', 400);
}

/* ---- Events and frames at the terminal ---- */

/* A paste asks the host, and locks its file. */
static void act_paste(void)
{
    struct piece wanted = {0};
    uint64_t sent = 0;
    start_term(0);
    open_gaps(2, 0);
    user(PASTE, 1, 0, 0, "");
    add_message(&wanted, TPASTE, "24", 1, 0);
    want_pending(TERM, &wanted);
    want("sent", sam_term_sent(&term, &sent));
    want_number("how many messages are sent", sent, 1);
    want_number("a lock", is_locked(), 1);
}

/* Typing over a dot cuts it and types, or does neither. */
static void act_type(void)
{
    struct piece wanted = {0};
    show_term(5, "ab cd");
    user(TYPE, 1, 0, 0, "X");
    user(TYPE, 1, 0, 0, "Y");
    user(FLUSH_NOW, 0, 0, 0, "");
    user(SELECT, 1, 0, 2, "");
    user(TYPE, 1, 0, 0, "Z");
    add_message(&wanted, TCUT, "244", 1, 0, 2);
    want_pending(TERM, &wanted);
    want_rasp(1, "Zab cd");
    want_number("how many runes are unsent", unsent(), 1);
}

/* An edit replaces its range and composes all of its messages, or does neither: what is unsent, the cut, and the text in two pieces. */
static void act_edit(void)
{
    struct piece wanted = {0};
    show_term(5, "ab cd");
    user(TYPE, 1, 0, 0, "X");
    user(EDIT, 1, 3, 4, (const char *)letters('z', 600));
    add_message(&wanted, TTYPE, "24s", 1, 0, "X");
    add_message(&wanted, TCUT, "244", 1, 3, 4);
    add_message(&wanted, TTYPE, "24s", 1, 3, letters('z', 512));
    add_message(&wanted, TTYPE, "24s", 1, 515, letters('z', 88));
    want_pending(TERM, &wanted);
    want_number("the length", term_len(), 605);
    want_number("how many runes are unsent", unsent(), 0);
}

/* A check has the first gap in view asked for. */
static void receive_check(void)
{
    struct piece wanted = {0};
    make_term();
    open_gaps(0, 0);
    open_gaps(1, 10);
    user(VIEW, 1, 0, 5, "");
    TELL(HDATA, 1, "24s", 1, 0, "abcde");
    TELL(HUNLOCKFILE, 1, "2", 1);
    user(SELECT, 1, 0, 2, "");
    user(CUT, 1, 0, 0, "");
    user(CHECK, 1, 0, 0, "");
    user(TYPE, 0, 0, 0, ",d\n");
    TELL(HSNARFLEN, 3, "4", 2);
    TELL(HCHECK, 3, "2", 1);
    add_message(&wanted, TREQUEST, "242", 1, 3, 2);
    want_pending(TERM, &wanted);
    want_rasp(1, "cde_____");
    TELL(HUNLOCK, 5, ""); /* that of the line */
    want_number("a lock for what is asked for", is_locked(), 1);
}

/* ---- Both sides, frame by frame ---- */

static struct piece up, down;

/* Puts what is pending at both sides on its way, and counts it. */
static void collect(void)
{
    size_t count = 0;
    want("up", sam_term_take_out(&term, up.bytes + up.len, sizeof up.bytes - up.len, &count));
    up.len += count;
    want("down", sam_host_take_out(&host, down.bytes + down.len, sizeof down.bytes - down.len, &count));
    down.len += count;
}

/* How long the first frame is that stands here. */
static size_t frame_at(const struct piece *way, size_t at)
{
    return 3 + ((size_t)way->bytes[at + 1] << 8) + way->bytes[at + 2];
}

static unsigned frames_on(const struct piece *way)
{
    unsigned frames = 0;
    for (size_t at = 0; at < way->len; at += frame_at(way, at))
        frames++;
    return frames;
}

/* A side takes the first frame that is on its way there. */
static void take(enum side side)
{
    struct piece *way = side == HOST ? &up : &down, first = *way;
    first.len = frame_at(way, 0);
    first.frames = 1;
    way->len -= first.len;
    memmove(way->bytes, way->bytes + first.len, way->len);
    want("a frame on its way", fed(side, &first));
    collect();
}

/* A side takes a frame; then so many are under way. */
struct taking {
    enum side side;
    unsigned up, down;
};

static void take_all(const struct taking *takings, size_t count)
{
    for (size_t i = 0; i < count; i++) {
        take(takings[i].side);
        want_number("how many messages are under way", frames_on(&up), takings[i].up);
        want_number("how many frames are under way", frames_on(&down), takings[i].down);
    }
}

/* What the user does at first. */
static const struct event opening[] = {{VERSION, 0, 1, 0, ""}, {OPEN_CMD, 0, 0, 0, ""}, {OPEN, 1, 0, 0, ""}, {VIEW, 1, 0, 5, ""}};

/* Both sides show file 1. Of ten runes five are loaded. Each event is carried through, so that none is held. */
static void show_both(void)
{
    make_host((const uint8_t *)"abcdefghij", 10);
    make_term();
    for (size_t i = 0; i < sizeof opening / sizeof opening[0]; i++) {
        want("an event", tried(TERM, do_event, &opening[i], 1));
        for (collect(); up.len + down.len > 0;)
            take(up.len > 0 ? HOST : TERM);
    }
    want_rasp(1, "abcde_____");
}

/* A line deletes a file while the terminal asks for a part of it. */
static void step(void)
{
    static const struct taking asked[] = {{HOST, 3, 1}, {HOST, 2, 1}, {HOST, 1, 2}, {HOST, 0, 6}, {TERM, 0, 5}, {TERM, 1, 4}};
    static const struct taking answered[] = {{HOST, 0, 6}, {TERM, 0, 5}, {TERM, 0, 4}, {TERM, 0, 3},
                                             {TERM, 0, 2}, {TERM, 0, 1}, {TERM, 0, 0}};
    show_both();
    user(SELECT, 1, 0, 2, "");
    user(CUT, 1, 0, 0, "");
    user(CHECK, 1, 0, 0, "");
    user(TYPE, 0, 0, 0, ",d\n");
    collect();
    take_all(asked, sizeof asked / sizeof asked[0]);
    want_rasp(1, "cde_____");
    take_all(answered, sizeof answered / sizeof answered[0]);
    want_rasp(1, "");
    want_text(1, "");
    want_number("a lock", is_locked(), 0);
    want_number("how many runes are unsent", unsent(), 0);
}

/* ---- What is refused whatever memory does ---- */

/* A terminal of so many gaps refuses a frame of another kind than HDATA with these numbers, or else with this text. */
static void refuse_frame(uint32_t gaps, sam_status why, unsigned kind, uint32_t place, uint32_t count, const char *text)
{
    struct piece piece = {0};
    start_term(gaps);
    if (kind == HDATA)
        add_frame(&piece, HDATA, 0, "24s", 1, place, text);
    else
        add_frame(&piece, kind, 0, "244", 1, place, count);
    want_refused(TERM, &piece, why);
    want_number("the length", term_len(), gaps);
    want("free", sam_term_free(&term));
}

/* A rasp refuses runes and gaps past its end, and gaps beyond the limit. */
static void rasp_refuses(void)
{
    refuse_frame(5, SAM_TERM_BAD_POSITION, HDATA, 4, 0, "cd");
    refuse_frame(5, SAM_TERM_BAD_POSITION, HGROW, 6, 1, "");
    refuse_frame(5, SAM_TERM_TOO_LONG, HGROW, 0, 1000000, "");
}

static void receive_past(void)
{
    refuse_frame(8, SAM_TERM_BAD_POSITION, HDATA, 7, 0, "xy");
}

/* An answer to a message that was not sent. */
static void receive_future(void)
{
    struct piece piece = {0};
    start_term(8);
    add_frame(&piece, HACK, 1, "");
    want_refused(TERM, &piece, SAM_TERM_FROM_THE_FUTURE);
}

/* An event for a file that is not known. */
static void act_refuses(void)
{
    struct event event = {TYPE, 3, 0, 0, "Z"};
    static const char refused[] = "refused: 1, 130\n";
    start_term(8);
    want("an event", tried(TERM, do_event, &event, 1));
    char *line = strstr(now.rest, refused);
    if (!line)
        fail("the event is not refused", 0);
    memmove(line, line + strlen(refused), strlen(line + strlen(refused)) + 1);
    want_same("after a refused event", now.rest, before.rest);
}

static const struct tried_case cases[] = {
    {"encode_t", encode_t},
    {"encode_all", encode_all},
    {"decode_h", decode_h},
    {"decode_bad_h", decode_bad_h},
    {"grow", grow},
    {"data", data},
    {"type_in", type_in},
    {"replace", replace},
    {"apart", apart},
    {"cut", cut},
    {"act_paste", act_paste},
    {"act_type", act_type},
    {"act_edit", act_edit},
    {"receive_check", receive_check},
    {"step", step},
    {"rasp_refuses", rasp_refuses},
    {"receive_past", receive_past},
    {"act_refuses", act_refuses},
    {"receive_future", receive_future},
};

int main(int argc, char **argv)
{
    return run_cases(cases, sizeof cases / sizeof cases[0], argc, argv);
}
