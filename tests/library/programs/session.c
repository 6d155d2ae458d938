/*
 * A whole session, in which each event acts at least once, with what the readers of both sides say on the way. The bytes and texts that are
 * expected stand in docs/reference/PROTOCOL.md, docs/reference/COMMANDS.md and RFC 3629. It prints a line for each part, and ends with
 * status 0, or 1 and the line that failed.
 */
#include "wanting.h"

static void wants_under_way(sam_term *term, uint64_t should)
{
    uint64_t messages = 99;
    WANT(sam_term_under_way(term, &messages), SAM_OK);
    WANT(messages, should);
}

/* The parts of the session: each goes on where the one before it ended. */
static void session_begins(sam_host *host, sam_term *term)
{
    uint16_t tag, version;
    size_t len;
    uint8_t bytes[64];
    WANT(sam_host_new(host), SAM_OK);
    WANT(sam_host_add_file(host, BYTES("a"), BYTES("one two one\n"), &tag), SAM_OK);
    WANT(sam_term_new(term), SAM_OK);
    WANT(sam_term_current(term, &tag), SAM_NONE);
    WANT(sam_term_offer_version(term, 2), SAM_OK);
    WANT(sam_term_pending(term, &len), SAM_OK);
    WANT(len, 5);
    WANT(sam_term_take_out(term, bytes, sizeof bytes, &len), SAM_OK);
    WANT(memcmp(bytes, "\x01\0\x02\0\x02", 5), 0); /* Tversion 2 */
    WANT(sam_host_feed(host, bytes, len), SAM_OK);
    WANT(sam_host_pending(host, &len), SAM_OK);
    WANT(len > 0, 1);
    carry(term, host);
    WANT(sam_term_version(term, &version), SAM_OK);
    WANT(version, 2);
    WANT(sam_host_version(host, &version), SAM_OK);
    WANT(version, 2);
}

/* What is known of a file before it is open, and an event that waits until it is. */
static void file_opens(sam_host *host, sam_term *term)
{
    uint32_t a, b;
    uint64_t count, last;
    size_t len;
    uint8_t bytes[64];
    bool is;
    WANT(sam_term_open_cmd(term), SAM_OK);
    WANT(sam_term_command_locked(term, &is), SAM_OK);
    WANT(is, 1);
    carry(term, host);
    WANT(sam_term_tags(term, &len), SAM_OK);
    WANT(len, 2);
    WANT(sam_term_is_known(term, 1, &is), SAM_OK);
    WANT(is, 1);
    WANT(sam_term_name(term, 1, bytes, sizeof bytes, &len), SAM_OK);
    WANT(len == 1 && bytes[0] == 'a', 1);
    WANT(sam_term_is_open(term, 1, &is), SAM_OK);
    WANT(is, 0);
    WANT(sam_term_dot(term, 1, &a, &b), SAM_NONE);
    WANT(sam_term_open(term, 1), SAM_OK);
    WANT(sam_term_type(term, 1, BYTES("\xC3")), SAM_NOT_TEXT);
    WANT(sam_term_select(term, 1, 0, 3), SAM_OK); /* waits for the file */
    WANT(sam_term_held(term, &count), SAM_OK);
    WANT(count, 1);
    WANT(sam_term_events(term, &last), SAM_OK);
    WANT(sam_term_decided(term, &count), SAM_OK);
    WANT(count, last - 1);
    carry(term, host);
    WANT(sam_term_decided(term, &count), SAM_OK);
    WANT(count, last);
}

static void text_loads(sam_host *host, sam_term *term)
{
    uint32_t a, b, more, runes[8];
    uint64_t count, before;
    WANT(sam_term_len(term, 1, &a), SAM_OK);
    WANT(a, 12);
    WANT(sam_term_first_gap(term, 1, 0, &a), SAM_OK);
    WANT(a, 0);
    WANT(sam_term_read(term, 1, 10, runes, 8, &more), SAM_OK);
    WANT(more == 2 && runes[0] == SAM_GAP && runes[1] == SAM_GAP, 1);
    WANT(sam_term_view(term, 1, 4, 3), SAM_OK);
    carry(term, host);
    WANT(sam_term_first_gap(term, 1, 4, &a), SAM_OK);
    WANT(a, 7);
    WANT(sam_term_sent(term, &before), SAM_OK);
    WANT(sam_term_load(term, 1, 0, 12), SAM_OK); /* the gaps on both sides */
    WANT(sam_term_sent(term, &count), SAM_OK);
    WANT(count - before, 2);
    carry(term, host);
    WANT(sam_term_view_of(term, 1, &a, &b), SAM_OK);
    WANT(a == 0 && b == 12, 1);
    WANT(sam_term_first_gap(term, 1, 0, &a), SAM_NONE);
    WANT(sam_term_read(term, 1, 10, runes, 8, &more), SAM_OK);
    WANT(more == 2 && runes[0] == 'e' && runes[1] == '\n', 1);
    WANT(sam_term_dot(term, 1, &a, &b), SAM_OK);
    WANT(a == 0 && b == 3, 1);
}

/* The next occurrence of the dot, and what is changed and dirty once it is cut. */
static void found_and_cut(sam_host *host, sam_term *term)
{
    uint8_t bytes[8];
    size_t len;
    uint32_t a, b;
    bool is;
    WANT(sam_term_look(term, 1), SAM_OK);
    WANT(sam_term_locked(term, 1, &is), SAM_OK);
    WANT(is, 1);
    carry(term, host);
    WANT(sam_term_dot(term, 1, &a, &b), SAM_OK);
    WANT(a == 8 && b == 11, 1); /* the second 'one' */
    WANT(sam_term_is_changed(term, 1, &is), SAM_OK);
    WANT(is, 0);
    WANT(sam_term_cut(term, 1), SAM_OK);
    WANT(sam_term_is_changed(term, 1, &is), SAM_OK);
    WANT(is, 1);
    WANT(sam_term_is_dirty(term, 1, &is), SAM_OK);
    WANT(is, 0); /* the host says nothing of what is cut here */
    WANT(sam_term_is_changed(term, 9, &is), SAM_OK);
    WANT(is, 0); /* there is no such file */
    carry(term, host);
    same_text(host, 1, "one two \n");
    WANT(sam_term_snarf_len(term, &a), SAM_OK);
    WANT(a, 3);
    WANT(sam_host_snarf_len(host, &a), SAM_OK);
    WANT(a, 3);
    WANT(sam_host_snarf(host, 1, bytes, sizeof bytes, &len, &a), SAM_OK);
    WANT(len == 2 && a == 2 && memcmp(bytes, "ne", 2) == 0, true);
}

/* What is pasted, what is typed in its place, and what of it is unsent and under way. */
static void pasted_and_typed(sam_host *host, sam_term *term)
{
    uint32_t a;
    WANT(sam_term_select(term, 1, 0, 0), SAM_OK);
    WANT(sam_term_paste(term, 1), SAM_OK);
    carry(term, host);
    same_text(host, 1, "oneone two \n");
    wants_under_way(term, 0);
    WANT(sam_term_type(term, 1, BYTES("\xC3\xA9")), SAM_OK); /* in the place of what was pasted */
    WANT(sam_term_unsent(term, &a), SAM_OK);
    WANT(a, 1);
    WANT(sam_term_flush_now(term), SAM_OK);
    WANT(sam_term_unsent(term, &a), SAM_OK);
    WANT(a, 0);
    wants_under_way(term, 2); /* Tcut and Ttype */
    carry(term, host);
    same_text(host, 1, "\xC3\xA9one two \n");
    wants_under_way(term, 2); /* the host has taken both, and answers neither */
    WANT(sam_term_check(term, 1), SAM_OK);
    wants_under_way(term, 3);
    carry(term, host);
    wants_under_way(term, 0);
}

static void file_is_written(sam_host *host, sam_term *term)
{
    uint16_t tag;
    uint32_t a, more;
    size_t len;
    uint8_t bytes[64];
    bool is;
    WANT(sam_host_text(host, 1, 0, bytes, 1, &len, &more), SAM_OK); /* no whole rune has room */
    WANT(len == 0 && more == 0, 1);
    WANT(sam_host_is_dirty(host, 1, &is), SAM_OK);
    WANT(is, 1);
    WANT(sam_host_saved_len(host, 1, &a), SAM_NONE);
    WANT(sam_host_next_written(host, &tag), SAM_NONE);
    WANT(sam_term_is_changed(term, 1, &is), SAM_OK);
    WANT(is, 1);
    WANT(sam_term_write(term, 1), SAM_OK);
    WANT(sam_term_is_changed(term, 1, &is), SAM_OK);
    WANT(is, 1); /* it is not written yet */
    carry(term, host);
    WANT(sam_term_is_changed(term, 1, &is), SAM_OK);
    WANT(is, 0);
    WANT(sam_host_next_written(host, &tag), SAM_OK);
    WANT(tag, 1);
    WANT(sam_host_next_written(host, &tag), SAM_NONE);
    WANT(sam_host_saved_len(host, 1, &a), SAM_OK);
    WANT(a, 10);
    WANT(sam_host_saved(host, 1, 5, bytes, sizeof bytes, &len, &more), SAM_OK);
    WANT(len == 5 && more == 5 && memcmp(bytes, "two \n", 5) == 0, 1);
}

static void word_is_snarfed(sam_host *host, sam_term *term)
{
    uint32_t a, b, more;
    size_t len;
    uint8_t bytes[64];
    WANT(sam_term_dclick(term, 1, 5), SAM_OK);
    carry(term, host);
    WANT(sam_host_dot(host, 1, &a, &b), SAM_OK);
    WANT(a == 5 && b == 8, 1); /* the word 'two' */
    WANT(sam_term_snarf(term, 1), SAM_OK);
    WANT(sam_term_get_snarf(term), SAM_OK);
    carry(term, host);
    WANT(sam_term_snarfed(term, 1, bytes, sizeof bytes, &len, &more), SAM_OK);
    WANT(len == 2 && more == 2 && memcmp(bytes, "wo", 2) == 0, 1);
}

/* A command line that is pasted into the command window. */
static void command_is_sent(sam_host *host, sam_term *term)
{
    uint16_t tag;
    size_t len;
    uint8_t bytes[64];
    bool is;
    WANT(sam_term_set_snarf(term, BYTES(",x/o/c/0/\n")), SAM_OK);
    WANT(sam_term_set_snarf(term, BYTES("\xFF")), SAM_NOT_TEXT);
    WANT(sam_term_work(term, 1), SAM_OK);
    WANT(sam_term_paste(term, 0), SAM_OK); /* into the command window */
    carry(term, host);
    WANT(sam_term_current(term, &tag), SAM_OK);
    WANT(tag, 1);
    WANT(sam_term_select(term, 0, 0, 10), SAM_OK);
    WANT(sam_term_send(term, 0), SAM_OK);
    carry(term, host);
    same_text(host, 1,
              "\xC3\xA9"
              "0ne tw0 \n");
    WANT(sam_term_is_dirty(term, 1, &is), SAM_OK);
    WANT(is, 1); /* the host said so: the file was clean before the command */
    WANT(sam_term_is_changed(term, 1, &is), SAM_OK);
    WANT(is, 1);
    WANT(sam_term_pattern(term, bytes, sizeof bytes, &len), SAM_OK);
    WANT(len == 1 && bytes[0] == 'o', 1);
}

static void file_comes_and_goes(sam_host *host, sam_term *term)
{
    uint32_t a, b, more;
    size_t len;
    uint8_t bytes[64];
    bool is;
    WANT(sam_term_new_file(term), SAM_OK);
    carry(term, host);
    WANT(sam_host_has_file(host, 2, &is), SAM_OK);
    WANT(is, 1);
    WANT(sam_term_close(term, 2), SAM_OK);
    carry(term, host);
    WANT(sam_host_has_file(host, 2, &is), SAM_OK);
    WANT(is, 0);
    WANT(sam_host_name(host, 2, bytes, sizeof bytes, &len), SAM_NONE);
    WANT(sam_host_name(host, 1, bytes, sizeof bytes, &len), SAM_OK);
    WANT(len == 1 && bytes[0] == 'a', 1);
    WANT(sam_host_len(host, 1, &a), SAM_OK);
    WANT(sam_host_len(host, 2, &a), SAM_NONE);
    WANT(sam_host_is_dirty(host, 2, &is), SAM_NONE);
    WANT(sam_host_text(host, 2, 0, bytes, sizeof bytes, &len, &more), SAM_NONE);
    WANT(sam_host_saved(host, 2, 0, bytes, sizeof bytes, &len, &more), SAM_NONE);
    WANT(sam_host_dot(host, 2, &a, &b), SAM_NONE);
}

static void events_are_refused(sam_term *term)
{
    static const uint8_t many[513] = {0};
    uint64_t count, last;
    WANT(sam_term_cut(term, 9), SAM_OK);
    WANT(sam_term_events(term, &last), SAM_OK);
    WANT(sam_term_decided(term, &count), SAM_OK);
    WANT(count, last); /* a refused event is no longer held */
    wants_refusal(term, SAM_REFUSAL_NO_FILE);
    WANT(sam_term_select(term, 1, 0, 99), SAM_OK);
    wants_refusal(term, SAM_REFUSAL_BAD_POSITION);
    WANT(sam_term_type(term, 1, many, sizeof many), SAM_OK);
    wants_refusal(term, SAM_REFUSAL_TEXT_TOO_LONG);
    size_t taken;
    WANT(sam_term_events(term, &last), SAM_OK);
    WANT(sam_term_type_text(term, 9, many, sizeof many, &taken), SAM_OK); /* two events */
    WANT(taken, sizeof many);
    WANT(sam_term_events(term, &count), SAM_OK);
    WANT(count, last + 2);
    uint64_t event;
    sam_status why;
    WANT(sam_term_next_refusal(term, &event, &why), SAM_OK);
    WANT(why, SAM_REFUSAL_NO_FILE);
    WANT(event, last + 1);
    wants_refusal(term, SAM_REFUSAL_NO_FILE);
    WANT(sam_term_type_text(term, 1, BYTES("\xC3"), &taken), SAM_NOT_TEXT);
    WANT(taken, 0);
    WANT(sam_term_close(term, 0), SAM_OK);
    wants_refusal(term, SAM_REFUSAL_COMMAND_FILE);
    WANT(sam_term_offer_version(term, 0), SAM_OK);
    wants_refusal(term, SAM_REFUSAL_BAD_VERSION);
}

static void session_ends(sam_host *host, sam_term *term)
{
    uint64_t count, taken;
    bool is;
    WANT(sam_term_sent(term, &count), SAM_OK);
    WANT(sam_host_taken(host, &taken), SAM_OK);
    WANT(taken, count);
    WANT(sam_host_is_done(host, &is), SAM_OK);
    WANT(is, 0);
    WANT(sam_term_exit(term), SAM_OK);
    carry(term, host);
    WANT(sam_host_is_done(host, &is), SAM_OK);
    WANT(is, 1);
    WANT(sam_term_exited(term, &is), SAM_OK);
    WANT(is, 1);
    WANT(sam_term_cut(term, 1), SAM_OK);
    wants_refusal(term, SAM_REFUSAL_EXITED);
}

int main(void)
{
    sam_host host = SAM_HOST_INIT;
    sam_term term = SAM_TERM_INIT;
    session_begins(&host, &term);
    file_opens(&host, &term);
    text_loads(&host, &term);
    puts("a file is opened and loaded");
    found_and_cut(&host, &term);
    pasted_and_typed(&host, &term);
    file_is_written(&host, &term);
    word_is_snarfed(&host, &term);
    puts("it is edited and written");
    command_is_sent(&host, &term);
    WANT(sam_term_search(&term, 1), SAM_OK);
    WANT(sam_term_scroll(&term, 1, 1), SAM_OK);
    WANT(sam_term_check(&term, 1), SAM_OK);
    WANT(sam_term_flush(&term), SAM_OK);
    puts("a command line is run");
    file_comes_and_goes(&host, &term);
    events_are_refused(&term);
    session_ends(&host, &term);
    puts("the session ends");
    WANT(sam_host_free(&host), SAM_OK);
    WANT(sam_term_free(&term), SAM_OK);
    return 0;
}
