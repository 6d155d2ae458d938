/*
 * Texts by the calls of sulgrevad.h: edits of any length, what is too long, tags without a file, runes and bytes and lines of a text, and
 * what of it changed. The texts that are expected stand in docs/reference/PROTOCOL.md, docs/reference/COMMANDS.md and RFC 3629. It prints a
 * line for each group, and ends with status 0, or 1 and the line that failed.
 */
#include "wanting.h"

/* By one rune that is typed, and by an edit that puts three in the place of two. */
static void longer_is_refused(sam_term *term)
{
    uint64_t event;
    sam_status why;
    WANT(sam_term_type(term, 1, BYTES("y")), SAM_OK);
    WANT(sam_term_next_refusal(term, &event, &why), SAM_OK);
    WANT(event, 3);
    WANT(why, SAM_REFUSAL_TOO_LONG);
    WANT(sam_term_edit(term, 1, 4, 6, BYTES("yyy")), SAM_OK);
    WANT(sam_term_next_refusal(term, &event, &why), SAM_OK);
    WANT(event, 4);
    WANT(why, SAM_REFUSAL_TOO_LONG);
}

static void as_long_is_taken(sam_host *host, sam_term *term, const uint8_t *letters, size_t len)
{
    static uint8_t messages[1100000];
    uint64_t event;
    sam_status why;
    uint8_t text[4];
    uint32_t runes;
    size_t bytes;
    WANT(sam_term_edit(term, 1, 0, 1000000, letters, len), SAM_OK); /* as long as it was: a Tcut and 1,954 Ttypes */
    WANT(sam_term_edit(term, 1, 4, 6, BYTES("yy")), SAM_OK);
    WANT(sam_term_next_refusal(term, &event, &why), SAM_NONE);
    WANT(sam_term_sent(term, &event), SAM_OK);
    WANT(event, 3 + 1 + 1954 + 2);
    WANT(sam_term_take_out(term, messages, sizeof messages, &bytes), SAM_OK);
    WANT(sam_host_feed(host, messages, bytes), SAM_OK);
    WANT(sam_host_text(host, 1, 3, text, sizeof text, &bytes, &runes), SAM_OK);
    WANT(runes == 4 && memcmp(text, "xyyx", 4) == 0, 1);
    WANT(sam_host_len(host, 1, &runes), SAM_OK);
    WANT(runes, 1000000);
}

/* A host that would pass the limit of a text refuses; so does a terminal, which goes on. */
static void too_long(void)
{
    static uint8_t letters[1000000];
    sam_host host = {0};
    sam_term term = {0};
    uint16_t tag;
    uint64_t event;
    sam_status why;
    memset(letters, 'x', sizeof letters);
    WANT(sam_host_new(&host), SAM_OK);
    WANT(sam_term_new(&term), SAM_OK);
    WANT(sam_host_add_file(&host, BYTES("a"), letters, sizeof letters, &tag), SAM_OK);
    WANT(sam_term_offer_version(&term, 2), SAM_OK);
    WANT(sam_term_open(&term, 1), SAM_OK); /* held until the names have come */
    carry(&term, &host);
    WANT(sam_term_next_refusal(&term, &event, &why), SAM_NONE);
    longer_is_refused(&term);
    as_long_is_taken(&host, &term, letters, sizeof letters);
    WANT(sam_host_feed(&host, BYTES("\x08\0\x07\0\x01\0\0\0\0y")), SAM_HOST_TOO_LONG);
    WANT(sam_host_free(&host), SAM_OK);
    WANT(sam_term_free(&term), SAM_OK);
}

/* None of these sends a message, not even that of the rune that was typed before. */
static void edits_are_refused(sam_term *term, uint64_t before)
{
    uint64_t count;
    WANT(sam_term_edit(term, 0, 0, 0, BYTES("x")), SAM_OK);
    wants_refusal(term, SAM_REFUSAL_COMMAND_FILE);
    WANT(sam_term_edit(term, 2, 0, 0, BYTES("x")), SAM_OK);
    wants_refusal(term, SAM_REFUSAL_NOT_OPEN);
    WANT(sam_term_edit(term, 3, 0, 0, BYTES("x")), SAM_OK);
    wants_refusal(term, SAM_REFUSAL_NO_FILE);
    WANT(sam_term_edit(term, 1, 2, 1, BYTES("x")), SAM_OK);
    wants_refusal(term, SAM_REFUSAL_BAD_POSITION);
    WANT(sam_term_edit(term, 1, 0, 10, BYTES("x")), SAM_OK);
    wants_refusal(term, SAM_REFUSAL_BAD_POSITION);
    WANT(sam_term_edit(term, 1, 0, 9, BYTES("x\xFF")), SAM_NOT_TEXT);
    WANT(sam_term_edit(term, 1, 4, 4, NULL, 0), SAM_OK); /* nothing goes and nothing comes: the typed rune stays unsent */
    WANT(sam_term_sent(term, &count), SAM_OK);
    WANT(count, before);
}

static void long_edit_goes(sam_host *host, sam_term *term, uint64_t before)
{
    static uint8_t many[1100];
    uint32_t runes, a, b;
    uint64_t count;
    memset(many, 'm', sizeof many);
    WANT(sam_term_edit(term, 1, 4, 7, many, sizeof many), SAM_OK);
    WANT(sam_term_sent(term, &count), SAM_OK);
    WANT(count - before, 5); /* a Ttype of the typed rune, a Tcut, and Ttypes of 512, 512 and 76 runes */
    WANT(sam_term_unsent(term, &runes), SAM_OK);
    WANT(runes, 0);
    WANT(sam_term_dot(term, 1, &a, &b), SAM_OK);
    WANT(a == 1106 && b == 1106, 1);
    carry(term, host);
    WANT(sam_host_len(host, 1, &runes), SAM_OK);
    WANT(runes, 1106);
}

static void edit_waits_for_a_lock(sam_host *host, sam_term *term)
{
    uint64_t count;
    WANT(sam_term_look(term, 1), SAM_OK); /* its lock holds the next one back */
    WANT(sam_term_edit(term, 1, 4, 1104, BYTES("\xC3\xA9")), SAM_OK);
    WANT(sam_term_held(term, &count), SAM_OK);
    WANT(count, 1);
    carry(term, host);
    same_text(host, 1, "one \xC3\xA9\nx");
}

static void edit_takes_all_out(sam_host *host, sam_term *term)
{
    bool is;
    WANT(sam_term_edit(term, 1, 0, 7, NULL, 0), SAM_OK);
    carry(term, host);
    same_text(host, 1, "");
    WANT(sam_term_is_changed(term, 1, &is), SAM_OK);
    WANT(is, 1);
}

/* An edit of any length goes at once, after the runes that were typed before; one that is refused changes nothing. */
static void edits(void)
{
    sam_host host = {0};
    sam_term term = {0};
    uint16_t tag;
    uint32_t runes;
    uint64_t before;
    WANT(sam_host_new(&host), SAM_OK);
    WANT(sam_host_add_file(&host, BYTES("a"), BYTES("one two\n"), &tag), SAM_OK);
    WANT(sam_host_add_file(&host, BYTES("b"), BYTES("b"), &tag), SAM_OK);
    WANT(sam_term_new(&term), SAM_OK);
    WANT(sam_term_offer_version(&term, 2), SAM_OK);
    WANT(sam_term_open_cmd(&term), SAM_OK);
    WANT(sam_term_open(&term, 1), SAM_OK);
    WANT(sam_term_select(&term, 1, 8, 8), SAM_OK);
    carry(&term, &host);
    WANT(sam_term_type(&term, 1, BYTES("x")), SAM_OK);
    WANT(sam_term_unsent(&term, &runes), SAM_OK);
    WANT(runes, 1);
    WANT(sam_term_sent(&term, &before), SAM_OK);
    edits_are_refused(&term, before);
    long_edit_goes(&host, &term, before);
    edit_waits_for_a_lock(&host, &term);
    edit_takes_all_out(&host, &term);
    WANT(sam_term_free(&term), SAM_OK);
    WANT(sam_host_free(&host), SAM_OK);
}

/* What the readers return of a tag that has no file, and of a file that is known and not open. */
static void reads_no_file(sam_term *term, uint16_t tag, sam_status known)
{
    uint8_t bytes[8];
    uint32_t runes[8], a, b, c;
    size_t len;
    bool is = true;
    WANT(sam_term_is_known(term, tag, &is), SAM_OK);
    WANT(is, known == SAM_OK);
    WANT(sam_term_is_open(term, tag, &is), SAM_OK);
    WANT(is, 0);
    WANT(sam_term_is_changed(term, tag, &is), SAM_OK);
    WANT(is, 0);
    WANT(sam_term_is_dirty(term, tag, &is), known);
    WANT(sam_term_name(term, tag, bytes, sizeof bytes, &len), known);
    WANT(sam_term_len(term, tag, &a), SAM_NONE);
    WANT(sam_term_read(term, tag, 0, runes, 8, &a), SAM_NONE);
    WANT(sam_term_text(term, tag, 0, bytes, sizeof bytes, &len, &a), SAM_NONE);
    WANT(sam_term_bytes(term, tag, 0, 1, &len, &a), SAM_NONE);
    WANT(sam_term_place(term, tag, 0, 1, &a), SAM_NONE);
    WANT(sam_term_units(term, tag, 0, 1, &a, &b), SAM_NONE);
    WANT(sam_term_unit_place(term, tag, 0, 1, &a), SAM_NONE);
    WANT(sam_term_line(term, tag, 0, 0, &a), SAM_NONE);
    WANT(sam_term_line_before(term, tag, 0, 0, &a), SAM_NONE);
    WANT(sam_term_lines(term, tag, 0, 1, &a, &b), SAM_NONE);
    WANT(sam_term_changed(term, tag, &a, &b, &c), SAM_NONE);
    WANT(sam_term_first_gap(term, tag, 0, &a), SAM_NONE);
    WANT(sam_term_dot(term, tag, &a, &b), SAM_NONE);
    WANT(sam_term_view_of(term, tag, &a, &b), SAM_NONE);
}

static void written_twice_and_closed(sam_host *host, sam_term *term)
{
    uint16_t tag;
    WANT(sam_term_open(term, 1), SAM_OK);
    WANT(sam_term_write(term, 1), SAM_OK);
    WANT(sam_term_type(term, 1, BYTES("x")), SAM_OK);
    WANT(sam_term_write(term, 1), SAM_OK);
    WANT(sam_term_close(term, 1), SAM_OK);
    carry(term, host);
    WANT(sam_host_next_written(host, &tag), SAM_OK); /* each Twrite gives its tag once */
    WANT(tag, 1);
    WANT(sam_host_next_written(host, &tag), SAM_OK);
    WANT(tag, 1);
    WANT(sam_host_next_written(host, &tag), SAM_NONE);
}

static void host_reads_no_file(sam_host *host, uint16_t tag)
{
    uint8_t bytes[8];
    uint32_t a, b, more;
    size_t len;
    bool is = true;
    WANT(sam_host_has_file(host, tag, &is), SAM_OK);
    WANT(is, 0);
    WANT(sam_host_name(host, tag, bytes, sizeof bytes, &len), SAM_NONE);
    WANT(sam_host_len(host, tag, &a), SAM_NONE);
    WANT(sam_host_is_dirty(host, tag, &is), SAM_NONE);
    WANT(sam_host_text(host, tag, 0, bytes, sizeof bytes, &len, &more), SAM_NONE);
    WANT(sam_host_saved(host, tag, 0, bytes, sizeof bytes, &len, &more), SAM_NONE);
    WANT(sam_host_saved_len(host, tag, &a), SAM_NONE);
    WANT(sam_host_dot(host, tag, &a, &b), SAM_NONE);
}

/* What the header says of tags without a file, at both sides. */
static void tags_without_a_file(void)
{
    sam_host host = SAM_HOST_INIT;
    sam_term term = SAM_TERM_INIT;
    uint16_t tag;
    uint8_t bytes[8];
    size_t len;
    bool is = true;
    WANT(sam_host_new(&host), SAM_OK);
    WANT(sam_host_add_file(&host, BYTES("a\0b"), BYTES("one"), &tag), SAM_OK); /* NUL is a rune like others */
    WANT(sam_term_new(&term), SAM_OK);
    WANT(sam_term_offer_version(&term, 2), SAM_OK);
    WANT(sam_term_locked(&term, 9, &is), SAM_OK);
    WANT(is, 1); /* the command lock is held */
    carry(&term, &host);
    WANT(sam_term_locked(&term, 9, &is), SAM_OK);
    WANT(is, 0);
    reads_no_file(&term, 9, SAM_NONE);
    reads_no_file(&term, 1, SAM_OK);
    WANT(sam_term_name(&term, 1, bytes, sizeof bytes, &len), SAM_OK);
    WANT(len == 3 && memcmp(bytes, "a\0b", 3) == 0, 1);
    written_twice_and_closed(&host, &term);
    reads_no_file(&term, 1, SAM_NONE);
    host_reads_no_file(&host, 1);
    WANT(sam_term_free(&term), SAM_OK);
    WANT(sam_host_free(&host), SAM_OK);
}

/* The loaded text from a place on, in a buffer of this room, with an untouched byte after it. */
static void wants_text(sam_term *term, uint32_t place, size_t room, const char *text, uint32_t runes)
{
    uint8_t bytes[16];
    size_t len = 99;
    uint32_t count = 99;
    memset(bytes, 9, sizeof bytes);
    WANT(sam_term_text(term, 1, place, bytes, room, &len, &count), SAM_OK);
    WANT(len, strlen(text));
    WANT(count, runes);
    WANT(memcmp(bytes, text, len), 0);
    WANT(bytes[len], 9);
}

static void wants_bytes(sam_term *term, uint32_t start, uint32_t end, size_t bytes, uint32_t gaps)
{
    size_t len = 99;
    uint32_t count = 99;
    WANT(sam_term_bytes(term, 1, start, end, &len, &count), SAM_OK);
    WANT(len, bytes);
    WANT(count, gaps);
}

static void wants_place(sam_term *term, uint32_t start, size_t bytes, uint32_t place)
{
    uint32_t is = 99;
    WANT(sam_term_place(term, 1, start, bytes, &is), SAM_OK);
    WANT(is, place);
}

static void wants_units(sam_term *term, uint32_t start, uint32_t end, uint32_t units, uint32_t gaps)
{
    uint32_t are = 99, lacks = 99;
    WANT(sam_term_units(term, 1, start, end, &are, &lacks), SAM_OK);
    WANT(are, units);
    WANT(lacks, gaps);
}

static void wants_unit_place(sam_term *term, uint32_t start, uint32_t units, uint32_t place)
{
    uint32_t is = 99;
    WANT(sam_term_unit_place(term, 1, start, units, &is), SAM_OK);
    WANT(is, place);
}

static void wants_line(sam_term *term, uint32_t start, uint32_t lines, sam_status status, uint32_t place)
{
    uint32_t is = 99;
    WANT(sam_term_line(term, 1, start, lines, &is), status);
    WANT(is, status == SAM_OK ? place : 99);
}

static void wants_line_before(sam_term *term, uint32_t start, uint32_t lines, sam_status status, uint32_t place)
{
    uint32_t is = 99;
    WANT(sam_term_line_before(term, 1, start, lines, &is), status);
    WANT(is, status == SAM_OK ? place : 99);
}

static void wants_lines(sam_term *term, uint32_t start, uint32_t end, uint32_t lines, uint32_t gaps)
{
    uint32_t ends = 99, lacks = 99;
    WANT(sam_term_lines(term, 1, start, end, &ends, &lacks), SAM_OK);
    WANT(ends, lines);
    WANT(lacks, gaps);
}

static void lines_with_gaps(sam_term *term)
{
    wants_line_before(term, 0, 0, SAM_OK, 0); /* the text begins a line */
    wants_line_before(term, 0, 1, SAM_NONE, 0);
    wants_line_before(term, 1, 0, SAM_NONE, 0); /* the gap at 0 */
    wants_line_before(term, 2, 0, SAM_OK, 2);
    wants_line_before(term, 4, 0, SAM_OK, 2); /* before the line end of its own line */
    wants_line_before(term, 5, 0, SAM_OK, 5);
    wants_line_before(term, 7, 1, SAM_OK, 2);
    wants_line_before(term, 8, 2, SAM_OK, 2);
    wants_line_before(term, 8, 3, SAM_NONE, 0);
    wants_line_before(term, 9, 0, SAM_NONE, 0); /* the gap at 8 */
    wants_line_before(term, 12, 0, SAM_NONE, 0);
    wants_lines(term, 0, 11, 3, 4);
    wants_lines(term, 2, 4, 0, 0);
    wants_lines(term, 4, 5, 1, 0);
    wants_lines(term, 8, 99, 0, 3);
    wants_lines(term, 5, 4, 0, 0);
}

static void units_with_gaps(sam_term *term)
{
    wants_units(term, 0, 11, 8, 4);
    wants_units(term, 2, 4, 2, 0);
    wants_units(term, 5, 6, 2, 0); /* the bird */
    wants_units(term, 8, 99, 0, 3);
    wants_units(term, 4, 4, 0, 0);
    wants_units(term, 4, 3, 0, 0);
    wants_units(term, 99, 100, 0, 0);
    wants_unit_place(term, 2, 0, 2);
    wants_unit_place(term, 2, 3, 5);
    wants_unit_place(term, 2, 4, 5); /* one unit is too few for the bird */
    wants_unit_place(term, 2, 5, 6);
    wants_unit_place(term, 2, UINT32_MAX, 8); /* the gap */
    wants_unit_place(term, 0, 99, 0);
    wants_unit_place(term, 99, 1, 99);
}

static void measures_with_gaps(sam_term *term)
{
    wants_text(term, 0, 15, "", 0);
    wants_text(term, 1, 15, "\n\xC3\xA9\xE2\x86\x92\n\xF0\x9F\x90\xA6z\n", 7);
    wants_text(term, 2, 8, "\xC3\xA9\xE2\x86\x92\n", 3); /* two bytes are too few for the bird */
    wants_text(term, 2, 1, "", 0);
    wants_text(term, 8, 15, "", 0);
    wants_text(term, 99, 15, "", 0);
    wants_bytes(term, 0, 11, 13, 4);
    wants_bytes(term, 2, 4, 5, 0);
    wants_bytes(term, 5, 6, 4, 0);
    wants_bytes(term, 8, 99, 0, 3);
    wants_bytes(term, 4, 4, 0, 0);
    wants_bytes(term, 4, 3, 0, 0);
    wants_bytes(term, 99, 100, 0, 0);
    wants_place(term, 2, 0, 2);
    wants_place(term, 2, 1, 2);
    wants_place(term, 2, 5, 4);
    wants_place(term, 2, 9, 5);  /* three bytes are too few for the bird */
    wants_place(term, 2, 99, 8); /* the gap */
    wants_place(term, 0, 99, 0);
    wants_place(term, 99, 1, 99);
    units_with_gaps(term);
    wants_line(term, 0, 0, SAM_OK, 0);
    wants_line(term, 99, 0, SAM_OK, 99);
    wants_line(term, 99, 1, SAM_NONE, 0);
    wants_line(term, 0, 1, SAM_NONE, 0);
    wants_line(term, 1, 1, SAM_OK, 2);
    wants_line(term, 1, 2, SAM_OK, 5);
    wants_line(term, 2, 2, SAM_OK, 8);
    wants_line(term, 2, 3, SAM_NONE, 0);
}

static void measures_without_gaps(sam_term *term)
{
    wants_bytes(term, 0, 11, 17, 0);
    wants_place(term, 0, 17, 11);
    wants_place(term, 0, 99, 11);
    wants_place(term, 0, SIZE_MAX, 11);
    wants_units(term, 0, 11, 12, 0);
    wants_unit_place(term, 0, 12, 11);
    wants_unit_place(term, 0, 11, 10);
    wants_unit_place(term, 0, UINT32_MAX, 11);
    wants_line(term, 0, 3, SAM_OK, 8);
    wants_line(term, 0, UINT32_MAX, SAM_NONE, 0);
    wants_line(term, 0, 4, SAM_NONE, 0);
    wants_text(term, 8, 15, "end", 3);
    wants_line_before(term, 11, 0, SAM_OK, 8);
    wants_line_before(term, 11, 3, SAM_OK, 0);
    wants_line_before(term, 11, 4, SAM_NONE, 0);
    wants_line_before(term, 1, 0, SAM_OK, 0);
    wants_line_before(term, 12, 0, SAM_NONE, 0);
    wants_lines(term, 0, 11, 3, 0);
}

/* Runes, bytes, code units and lines of a text of which the places 1 to 8 are loaded, and then all: runes of 1, 2, 3 and 4 bytes, and three lines. */
static void measures(void)
{
    static const char text[] = "a\n\xC3\xA9\xE2\x86\x92\n\xF0\x9F\x90\xA6z\nend"; /* a \n é → \n U+1F426 z \n e n d */
    sam_host host = SAM_HOST_INIT;
    sam_term term = SAM_TERM_INIT;
    uint16_t tag;
    WANT(sam_host_new(&host), SAM_OK);
    WANT(sam_host_add_file(&host, BYTES("a"), BYTES(text), &tag), SAM_OK);
    WANT(sam_term_new(&term), SAM_OK);
    WANT(sam_term_offer_version(&term, 2), SAM_OK);
    WANT(sam_term_open(&term, 1), SAM_OK);
    WANT(sam_term_view(&term, 1, 1, 7), SAM_OK);
    carry(&term, &host);
    measures_with_gaps(&term);
    lines_with_gaps(&term);
    WANT(sam_term_load(&term, 1, 0, 11), SAM_OK);
    carry(&term, &host);
    measures_without_gaps(&term);
    WANT(sam_term_free(&term), SAM_OK);
    WANT(sam_host_free(&host), SAM_OK);
}

static void wants_change(sam_term *term, uint32_t start, uint32_t gone, uint32_t came)
{
    uint32_t a = 99, b = 99, c = 99;
    WANT(sam_term_changed(term, 1, &a, &b, &c), SAM_OK);
    if (b != 0 || c != 0 || gone != 0 || came != 0) /* where nothing changed, any place is right */
        WANT(a, start);
    WANT(b, gone);
    WANT(c, came);
}

static void changes_by_loading(sam_host *host, sam_term *term)
{
    wants_change(term, 0, 0, 12); /* twelve gaps came into an empty text */
    wants_change(term, 0, 0, 0);
    WANT(sam_term_view(term, 1, 4, 3), SAM_OK);
    wants_change(term, 0, 0, 0);
    carry(term, host);
    wants_change(term, 4, 3, 3); /* `two` is loaded */
}

static void changes_by_edits(sam_host *host, sam_term *term)
{
    WANT(sam_term_select(term, 1, 4, 7), SAM_OK);
    wants_change(term, 0, 0, 0);
    WANT(sam_term_type(term, 1, BYTES("\xC3\xA9\xC3\xA9")), SAM_OK);
    wants_change(term, 4, 3, 2);
    WANT(sam_term_select(term, 1, 0, 1), SAM_OK);
    WANT(sam_term_cut(term, 1), SAM_OK);
    WANT(sam_term_select(term, 1, 10, 10), SAM_OK);
    WANT(sam_term_type(term, 1, BYTES("x")), SAM_OK);
    wants_change(term, 0, 11, 11);       /* from the first place to the last edit, with what is between */
    WANT(sam_term_cut(term, 1), SAM_OK); /* an empty dot: nothing */
    wants_change(term, 0, 0, 0);
    WANT(sam_term_select(term, 1, 2, 3), SAM_OK);
    WANT(sam_term_paste(term, 1), SAM_OK);
    wants_change(term, 2, 1, 0); /* the dot is gone, and the host has not answered */
    carry(term, host);
    wants_change(term, 2, 0, 1); /* the `o` that was cut comes */
}

static void changes_by_a_command(sam_host *host, sam_term *term)
{
    WANT(sam_term_open_cmd(term), SAM_OK);
    WANT(sam_term_work(term, 1), SAM_OK);
    WANT(sam_term_type(term, 0, BYTES(",d\n")), SAM_OK);
    carry(term, host);
    same_text(host, 1, "");
    wants_change(term, 0, 11, 0);
}

/* What changes in `one two one\n`, by events and by frames, one at a time and together. */
static void changes(void)
{
    sam_host host = SAM_HOST_INIT;
    sam_term term = SAM_TERM_INIT;
    uint16_t tag;
    WANT(sam_host_new(&host), SAM_OK);
    WANT(sam_host_add_file(&host, BYTES("a"), BYTES("one two one\n"), &tag), SAM_OK);
    WANT(sam_term_new(&term), SAM_OK);
    WANT(sam_term_offer_version(&term, 2), SAM_OK);
    WANT(sam_term_open(&term, 1), SAM_OK);
    carry(&term, &host);
    changes_by_loading(&host, &term);
    changes_by_edits(&host, &term);
    changes_by_a_command(&host, &term);
    WANT(sam_term_close(&term, 1), SAM_OK);
    carry(&term, &host);
    WANT(sam_term_changed(&term, 1, &(uint32_t){0}, &(uint32_t){0}, &(uint32_t){0}), SAM_NONE);
    WANT(sam_term_free(&term), SAM_OK);
    WANT(sam_host_free(&host), SAM_OK);
}

/* The command line that the header calls too long, in the text that it names. */
static void long_line(void)
{
    enum { LINES = 250000, RUNES = 600000 };
    static uint8_t text[RUNES];
    sam_host host = SAM_HOST_INIT;
    sam_term term = SAM_TERM_INIT;
    uint16_t tag;
    uint32_t len, runes;
    size_t bytes;
    uint8_t printed[7];
    memset(text, 'y', sizeof text);
    for (size_t i = 0; i < LINES; i++)
        memcpy(text + 2 * i, "x\n", 2);
    WANT(sam_host_new(&host), SAM_OK);
    WANT(sam_host_add_file(&host, BYTES("a"), text, sizeof text, &tag), SAM_OK);
    WANT(sam_term_new(&term), SAM_OK);
    WANT(sam_term_offer_version(&term, 2), SAM_OK);
    WANT(sam_term_open(&term, 1), SAM_OK);
    WANT(sam_term_open_cmd(&term), SAM_OK);
    WANT(sam_term_type(&term, 0, BYTES(",x/x\\n/c/y\\n/\n")), SAM_OK);
    carry(&term, &host);
    WANT(sam_host_len(&host, 0, &len), SAM_OK);
    WANT(sam_host_text(&host, 0, len - 7, printed, sizeof printed, &bytes, &runes), SAM_OK);
    WANT(bytes == 7 && memcmp(printed, "? long\n", 7) == 0, 1);
    WANT(sam_term_free(&term), SAM_OK);
    WANT(sam_host_free(&host), SAM_OK);
}

int main(void)
{
    too_long();
    puts("texts that are too long");
    tags_without_a_file();
    long_line();
    puts("what the header says of tags and of long lines");
    edits();
    puts("edits");
    measures();
    puts("runes, bytes and lines");
    changes();
    puts("changes");
    return 0;
}
