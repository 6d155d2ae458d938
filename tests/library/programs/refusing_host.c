/*
 * refusing_host NAME: a case of a host in which memory may be refused at any request (cases.h).
 */
#include "cases.h"

/* ---- Hosts to start with ---- */

/* A host that shows file 1, of this text. */
static void show_host(const char *text)
{
    make_host((const uint8_t *)text, strlen(text));
    ASK(TSTARTFILE, "2", 1);
}

/* A host that shows file 1 and the command file, and works on file 1. */
static void work_host(const char *text)
{
    show_host(text);
    ASK(TSTARTCMDFILE, "");
    ASK(TWORKFILE, "244", 1, 0, 0);
}

static uint32_t host_len(void)
{
    uint32_t len = 0;
    want("a length of the host", sam_host_len(&host, 1, &len));
    return len;
}

/* ---- Messages and frames, written and read ---- */

static void encode_h(void)
{
    struct piece wanted = given;
    show_host("ab");
    ASK(TREQUEST, "242", 1, 0, 2);
    add_frame(&wanted, HUNLOCKFILE, 2, "2", 1);
    want_pending(HOST, &wanted);
}

static void decode_t(void)
{
    show_host("");
    want("a message", fed(HOST, &typed));
    want("the stream may end", sam_host_finish(&host));
    want_text(1, "hi");
}

/* A wrong kind, a wrong length, a text that is not UTF-8, one that is cut, and one that is too long. */
static void decode_bad_t(void)
{
    static const struct bad rows[] = {{0x40, "", 0, 0, SAM_BAD_KIND},
                                      {TTYPE, "\0\1\0\0\0", 5, 0, SAM_BAD_LENGTH},
                                      {TTYPE, "\0\1\0\0\0\0\xC0\x80", 8, 0, SAM_BAD_TEXT},
                                      {TTYPE, "\0\1\0\0\0\0\x61\xE2\x82", 9, 0, SAM_BAD_TEXT},
                                      {TTYPE, "", 0, 519, SAM_BAD_TEXT}};
    for (size_t i = 0; i < sizeof rows / sizeof rows[0]; i++) {
        struct piece piece = body_of(rows[i].kind, rows[i].bytes, rows[i].len, rows[i].more);
        show_host("");
        want_refused(HOST, &piece, rows[i].why);
        want("free", sam_host_free(&host));
    }
}

/* A piece with a fault gives the message before it. */
static void feed_fault(void)
{
    struct piece piece = {0}, wanted = {0};
    add_message(&piece, TSTARTFILE, "2", 1);
    add_number(&piece, 0x17, 1);
    make_host((const uint8_t *)"", 0);
    sam_status status = fed(HOST, &piece);
    if (status != SAM_BAD_KIND || sam_host_finish(&host) != SAM_BAD_KIND)
        fail("a fault behind a message", status);
    add_frame(&wanted, HBINDNAME, 1, "2", 1);
    add_frame(&wanted, HUNLOCK, 1, "");
    want_pending(HOST, &wanted);
}

/* ---- Files that join ---- */

/* Adds the file `late` once memory is there; nothing has changed before. */
static uint16_t add_late(void)
{
    uint16_t tag = 0;
    sam_status status;
    read_state(HOST, &before);
    while ((status = sam_host_add_file(&host, (const uint8_t *)"late", 4, (const uint8_t *)"two", 3, &tag)) == SAM_NO_MEMORY)
        want_as_before(HOST, "a file that does not join");
    want("a file that joins", status);
    want_text(tag, "two");
    return tag;
}

/* The next version has the name. */
static void add_late_file(void)
{
    struct piece wanted = {0};
    show_host("ab");
    want_number("its tag", add_late(), 2);
    ASK(TVERSION, "2", 2);
    add_frame(&wanted, HVERSION, 2, "2", 2);
    add_frame(&wanted, HNEWNAME, 2, "2", 1);
    add_frame(&wanted, HMOVNAME, 2, "2s", 1, "a");
    add_frame(&wanted, HNEWNAME, 2, "2", 2);
    add_frame(&wanted, HMOVNAME, 2, "2s", 2, "late");
    add_frame(&wanted, HACK, 2, "");
    add_frame(&wanted, HUNLOCK, 2, "");
    want_pending(HOST, &wanted);
}

/* A message that waits for memory is answered after the file has joined; one whose answer waits to be written was answered before. */
static void add_while_waiting(void)
{
    struct piece piece = {0}, wanted = {0};
    struct state start;
    uint64_t taken = 0;
    sam_status status;
    show_host("ab");
    add_message(&piece, TSTARTNEWFILE, "");
    read_state(HOST, &start);
    while ((status = sam_host_feed(&host, piece.bytes, piece.len)) == SAM_NO_MEMORY)
        continue;
    want("taken", sam_host_taken(&host, &taken));
    uint16_t late = add_late(), new_file = taken == 1 ? 3 : 2;
    want_number("the tag of the file that joined", late, 5 - new_file);
    while (status == SAM_UNFINISHED || status == SAM_NO_MEMORY)
        status = sam_host_feed(&host, NULL, 0);
    want("a message that waited", status);
    want_text(new_file, "");
    want_text(late, "two");
    add_frame(&wanted, HNEWNAME, 2, "2", new_file);
    add_frame(&wanted, HBINDNAME, 2, "2", new_file);
    add_frame(&wanted, HCURRENT, 2, "2", new_file);
    add_frame(&wanted, HUNLOCK, 2, "");
    before = start;
    want_pending(HOST, &wanted);
}

/* ---- Marks ---- */

/* Marks file 1 as dirty once memory is there; nothing has changed before. */
static void mark_file(void)
{
    sam_status status;
    read_state(HOST, &before);
    while ((status = sam_host_mark_dirty(&host, 1)) == SAM_NO_MEMORY)
        want_as_before(HOST, "a file that is not marked");
    want("a mark", status);
}

/* A mark stands behind an answer that waits to be written, and before one that is not made yet. */
static void mark_while_waiting(void)
{
    struct piece piece = {0}, wanted = {0};
    struct state start;
    uint64_t taken = 0;
    bool is_first = false;
    sam_status status;
    show_host("ab");
    ASK(TVERSION, "2", 2);
    add_message(&piece, TCHECK, "2", 1);
    read_state(HOST, &start);
    while ((status = sam_host_feed(&host, piece.bytes, piece.len)) == SAM_NO_MEMORY)
        continue;
    want("taken", sam_host_taken(&host, &taken));
    is_first = taken == 2;
    mark_file();
    while (status == SAM_UNFINISHED || status == SAM_NO_MEMORY)
        status = sam_host_feed(&host, NULL, 0);
    want("a message that waited", status);
    if (is_first)
        add_frame(&wanted, HDIRTY, 2, "2", 1);
    add_frame(&wanted, HCHECK, 3, "2", 1);
    if (!is_first)
        add_frame(&wanted, HDIRTY, 3, "2", 1);
    before = start;
    want_pending(HOST, &wanted);
    want_text(1, "ab");
}

/* ---- Answers of the host ---- */

/* What stands between the commas is deleted. */
static void run_line(void)
{
    uint32_t start = 9, end = 0;
    work_host("a,b,,c");
    ASK(TTYPE, "24s", 0, 0, ",y/,/d\n");
    want_text(1, ",,,");
    want_text(0, ",y/,/d\n");
    want("a dot", sam_host_dot(&host, 1, &start, &end));
    want_number("the start of the dot", start, 0);
    want_number("the end of the dot", end, 3);
}

/* A line that changes each `a` of the work file. */
static void handle_line(void)
{
    struct piece wanted = {0};
    work_host("abab\n");
    ASK(TTYPE, "24s", 0, 0, ",x/a/c/X/\n");
    add_frame(&wanted, HCUT, 4, "244", 1, 2, 1);
    add_frame(&wanted, HGROWDATA, 4, "24s", 1, 2, "X");
    add_frame(&wanted, HCUT, 4, "244", 1, 0, 1);
    add_frame(&wanted, HGROWDATA, 4, "24s", 1, 0, "X");
    add_frame(&wanted, HDIRTY, 4, "2", 1);
    add_frame(&wanted, HSETPAT, 4, "s", "a");
    add_frame(&wanted, HSETDOT, 4, "244", 1, 0, 5);
    add_frame(&wanted, HCHECK, 4, "2", 1);
    add_frame(&wanted, HUNLOCK, 4, "");
    want_pending(HOST, &wanted);
    want_text(1, "XbXb\n");
}

/* A paste that fills a text to its limit, after one that would have passed it. */
static void handle_paste(void)
{
    struct piece wanted = {0};
    make_host(letters('b', 999999), 999999);
    ASK(TSTARTFILE, "2", 1);
    ASK(TSETSNARF, "s", "ab");
    ASK(TPASTE, "24", 1, 0);
    want_number("the length", host_len(), 999999);
    ASK(TSETSNARF, "s", "a");
    ASK(TPASTE, "24", 1, 0);
    want_number("the length", host_len(), 1000000);
    add_frame(&wanted, HGROWDATA, 5, "24s", 1, 0, "a");
    add_frame(&wanted, HDIRTY, 5, "2", 1);
    add_frame(&wanted, HSETDOT, 5, "244", 1, 0, 1);
    add_frame(&wanted, HCHECK, 5, "2", 1);
    add_frame(&wanted, HUNLOCKFILE, 5, "2", 1);
    want_pending(HOST, &wanted);
}

/* A line that is sent from the work file, and deletes it. */
static void handle_send(void)
{
    struct piece wanted = {0};
    work_host(",d");
    ASK(TSEND, "244", 1, 0, 2);
    add_frame(&wanted, HGROWDATA, 4, "24s", 0, 0, ",d\n");
    add_frame(&wanted, HSETDOT, 4, "244", 0, 3, 3);
    add_frame(&wanted, HCHECK, 4, "2", 0);
    add_frame(&wanted, HCUT, 4, "244", 1, 0, 2);
    add_frame(&wanted, HDIRTY, 4, "2", 1);
    add_frame(&wanted, HSETDOT, 4, "244", 1, 0, 0);
    add_frame(&wanted, HCHECK, 4, "2", 1);
    add_frame(&wanted, HUNLOCK, 4, "");
    want_pending(HOST, &wanted);
    want_text(1, "");
}

/* Edits that come all at once, with checks among them. Where memory is refused the host has taken some of them, and takes the others
 * later. */
static void handle_edits(void)
{
    struct piece edits = {0}, wanted = {0};
    uint64_t taken = 0;
    work_host("abab\n");
    add_message(&edits, TCUT, "244", 1, 0, 1);
    add_message(&edits, TTYPE, "24s", 1, 0, "X");
    add_message(&edits, TCHECK, "2", 1);
    add_message(&edits, TCUT, "244", 1, 2, 3);
    add_message(&edits, TCHECK, "2", 0);
    add_message(&edits, TTYPE, "24s", 1, 2, "X");
    want("edits", fed(HOST, &edits));
    add_frame(&wanted, HCHECK, 6, "2", 1);
    add_frame(&wanted, HCHECK, 8, "2", 0);
    want_pending(HOST, &wanted);
    want_text(1, "XbXb\n");
    want("taken", sam_host_taken(&host, &taken));
    want_number("how many messages are taken", taken, 9);
}

/* ---- What is refused whatever memory does ---- */

static void refuse_message(const char *text, sam_status why, uint16_t tag, uint32_t place)
{
    struct piece piece = {0};
    show_host(text);
    add_message(&piece, TTYPE, "24s", tag, place, "x");
    want_refused(HOST, &piece, why);
    want_text(1, text);
    want("free", sam_host_free(&host));
}

static void files_refuse(void)
{
    refuse_message("a,b,,c", SAM_HOST_NO_FILE, 2, 0);
    refuse_message("a,b,,c", SAM_HOST_BAD_POSITION, 1, 7);
}

/* A text of 1,000,000 runes takes none more. */
static void insert_long(void)
{
    struct piece piece = {0};
    uint8_t rune = 0;
    uint32_t runes = 0;
    size_t count = 0;
    make_host(letters('a', 1000000), 1000000);
    ASK(TSTARTFILE, "2", 1);
    add_message(&piece, TTYPE, "24s", 1, 0, "b");
    want_refused(HOST, &piece, SAM_HOST_TOO_LONG);
    want("the first rune", sam_host_text(&host, 1, 0, &rune, 1, &count, &runes));
    want_number("the first rune", rune, 'a');
    want_number("the length", host_len(), 1000000);
}

static const struct tried_case cases[] = {
    {"encode_h", encode_h},
    {"decode_t", decode_t},
    {"decode_bad_t", decode_bad_t},
    {"feed_fault", feed_fault},
    {"add_late_file", add_late_file},
    {"add_while_waiting", add_while_waiting},
    {"mark_while_waiting", mark_while_waiting},
    {"run_line", run_line},
    {"handle_line", handle_line},
    {"handle_paste", handle_paste},
    {"handle_send", handle_send},
    {"handle_edits", handle_edits},
    {"files_refuse", files_refuse},
    {"insert_long", insert_long},
};

int main(int argc, char **argv)
{
    return run_cases(cases, sizeof cases / sizeof cases[0], argc, argv);
}
