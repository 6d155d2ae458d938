/*
 * Each call of a host or a terminal once with a handle that is NULL, not made yet, or freed: it answers SAM_NO_HANDLE before all else, and
 * hands nothing out. It prints a line for each group, and ends with status 0, or 1 and the line that failed.
 */
#include "wanting.h"

/* What the calls can hand out. */
struct handed {
    uint8_t buffer[8];
    uint32_t runes[4], a, b, more;
    uint16_t tag, version;
    uint64_t many;
    size_t len;
    bool is;
    sam_did did;
    sam_state state;
    sam_file file;
};

static void no_host(sam_host *host, struct handed *out)
{
    WANT(sam_host_free(host), SAM_NO_HANDLE);
    WANT(sam_host_add_file(host, BYTES("n"), BYTES("t"), &out->tag), SAM_NO_HANDLE);
    WANT(sam_host_feed(host, BYTES("x")), SAM_NO_HANDLE);
    WANT(sam_host_bring(host, BYTES("x")), SAM_NO_HANDLE);
    WANT(sam_host_next_message(host, out->buffer, &out->tag), SAM_NO_HANDLE);
    WANT(sam_host_step(host, &out->did), SAM_NO_HANDLE);
    WANT(sam_host_finish(host), SAM_NO_HANDLE);
    WANT(sam_host_fault_place(host, &out->many), SAM_NO_HANDLE);
    WANT(sam_host_pending(host, &out->len), SAM_NO_HANDLE);
    WANT(sam_host_take_out(host, out->buffer, sizeof out->buffer, &out->len), SAM_NO_HANDLE);
    WANT(sam_host_next_written(host, &out->tag), SAM_NO_HANDLE);
    WANT(sam_host_mark_dirty(host, 0), SAM_NO_HANDLE);
    WANT(sam_host_is_done(host, &out->is), SAM_NO_HANDLE);
    WANT(sam_host_taken(host, &out->many), SAM_NO_HANDLE);
    WANT(sam_host_version(host, &out->version), SAM_NO_HANDLE);
    WANT(sam_host_tags(host, &out->len), SAM_NO_HANDLE);
    WANT(sam_host_has_file(host, 0, &out->is), SAM_NO_HANDLE);
    WANT(sam_host_name(host, 0, out->buffer, sizeof out->buffer, &out->len), SAM_NO_HANDLE);
    WANT(sam_host_len(host, 0, &out->a), SAM_NO_HANDLE);
    WANT(sam_host_is_dirty(host, 0, &out->is), SAM_NO_HANDLE);
    WANT(sam_host_text(host, 0, 0, out->buffer, sizeof out->buffer, &out->len, &out->more), SAM_NO_HANDLE);
    WANT(sam_host_saved_len(host, 0, &out->a), SAM_NO_HANDLE);
    WANT(sam_host_saved(host, 0, 0, out->buffer, sizeof out->buffer, &out->len, &out->more), SAM_NO_HANDLE);
    WANT(sam_host_dot(host, 0, &out->a, &out->b), SAM_NO_HANDLE);
    WANT(sam_host_snarf_len(host, &out->a), SAM_NO_HANDLE);
    WANT(sam_host_snarf(host, 0, out->buffer, sizeof out->buffer, &out->len, &out->more), SAM_NO_HANDLE);
}

static void no_term_for_events(sam_term *term)
{
    WANT(sam_term_type(term, 0, BYTES("\xFF")), SAM_NO_HANDLE);
    size_t taken = 7;
    WANT(sam_term_type_text(term, 0, BYTES("\xFF"), &taken), SAM_NO_HANDLE);
    WANT(taken, 7);
    WANT(sam_term_edit(term, 0, 0, 0, BYTES("\xFF")), SAM_NO_HANDLE);
    WANT(sam_term_select(term, 0, 0, 0), SAM_NO_HANDLE);
    WANT(sam_term_cut(term, 0), SAM_NO_HANDLE);
    WANT(sam_term_paste(term, 0), SAM_NO_HANDLE);
    WANT(sam_term_snarf(term, 0), SAM_NO_HANDLE);
    WANT(sam_term_look(term, 0), SAM_NO_HANDLE);
    WANT(sam_term_search(term, 0), SAM_NO_HANDLE);
    WANT(sam_term_send(term, 0), SAM_NO_HANDLE);
    WANT(sam_term_dclick(term, 0, 0), SAM_NO_HANDLE);
    WANT(sam_term_scroll(term, 0, 0), SAM_NO_HANDLE);
    WANT(sam_term_view(term, 0, 0, 0), SAM_NO_HANDLE);
    WANT(sam_term_load(term, 0, 0, 0), SAM_NO_HANDLE);
    WANT(sam_term_open(term, 0), SAM_NO_HANDLE);
    WANT(sam_term_open_cmd(term), SAM_NO_HANDLE);
    WANT(sam_term_new_file(term), SAM_NO_HANDLE);
    WANT(sam_term_write(term, 0), SAM_NO_HANDLE);
    WANT(sam_term_close(term, 0), SAM_NO_HANDLE);
    WANT(sam_term_work(term, 0), SAM_NO_HANDLE);
    WANT(sam_term_check(term, 0), SAM_NO_HANDLE);
    WANT(sam_term_get_snarf(term), SAM_NO_HANDLE);
    WANT(sam_term_set_snarf(term, BYTES("x")), SAM_NO_HANDLE);
    WANT(sam_term_offer_version(term, 2), SAM_NO_HANDLE);
    WANT(sam_term_flush(term), SAM_NO_HANDLE);
    WANT(sam_term_exit(term), SAM_NO_HANDLE);
}

/* The bytes that come and go, and what became of events. */
static void no_term_for_bytes(sam_term *term, struct handed *out)
{
    WANT(sam_term_feed(term, BYTES("x")), SAM_NO_HANDLE);
    WANT(sam_term_bring(term, BYTES("x")), SAM_NO_HANDLE);
    WANT(sam_term_next_frame(term, &out->did), SAM_NO_HANDLE);
    WANT(sam_term_step(term, &out->did), SAM_NO_HANDLE);
    WANT(sam_term_step_edits(term, 0, &out->did, 1, &out->len), SAM_NO_HANDLE);
    WANT(sam_term_finish(term), SAM_NO_HANDLE);
    WANT(sam_term_flush_now(term), SAM_NO_HANDLE);
    WANT(sam_term_pending(term, &out->len), SAM_NO_HANDLE);
    WANT(sam_term_take_out(term, out->buffer, sizeof out->buffer, &out->len), SAM_NO_HANDLE);
    WANT(sam_term_next_refusal(term, &out->many, &out->a), SAM_NO_HANDLE);
    WANT(sam_term_events(term, &out->many), SAM_NO_HANDLE);
    WANT(sam_term_decided(term, &out->many), SAM_NO_HANDLE);
}

static void no_term_for_files(sam_term *term, struct handed *out)
{
    WANT(sam_term_tags(term, &out->len), SAM_NO_HANDLE);
    WANT(sam_term_is_known(term, 0, &out->is), SAM_NO_HANDLE);
    WANT(sam_term_name(term, 0, out->buffer, sizeof out->buffer, &out->len), SAM_NO_HANDLE);
    WANT(sam_term_is_dirty(term, 0, &out->is), SAM_NO_HANDLE);
    WANT(sam_term_is_changed(term, 0, &out->is), SAM_NO_HANDLE);
    WANT(sam_term_is_open(term, 0, &out->is), SAM_NO_HANDLE);
    WANT(sam_term_current(term, &out->tag), SAM_NO_HANDLE);
    WANT(sam_term_len(term, 0, &out->a), SAM_NO_HANDLE);
    WANT(sam_term_read(term, 0, 0, out->runes, 4, &out->a), SAM_NO_HANDLE);
    WANT(sam_term_text(term, 0, 0, out->buffer, sizeof out->buffer, &out->len, &out->more), SAM_NO_HANDLE);
    WANT(sam_term_bytes(term, 0, 0, 1, &out->len, &out->a), SAM_NO_HANDLE);
    WANT(sam_term_place(term, 0, 0, 1, &out->a), SAM_NO_HANDLE);
    WANT(sam_term_units(term, 0, 0, 1, &out->a, &out->b), SAM_NO_HANDLE);
    WANT(sam_term_unit_place(term, 0, 0, 1, &out->a), SAM_NO_HANDLE);
    WANT(sam_term_line(term, 0, 0, 1, &out->a), SAM_NO_HANDLE);
    WANT(sam_term_line_before(term, 0, 0, 1, &out->a), SAM_NO_HANDLE);
    WANT(sam_term_lines(term, 0, 0, 1, &out->a, &out->b), SAM_NO_HANDLE);
    WANT(sam_term_changed(term, 0, &out->a, &out->b, &out->more), SAM_NO_HANDLE);
    WANT(sam_term_first_gap(term, 0, 0, &out->a), SAM_NO_HANDLE);
    WANT(sam_term_dot(term, 0, &out->a, &out->b), SAM_NO_HANDLE);
    WANT(sam_term_view_of(term, 0, &out->a, &out->b), SAM_NO_HANDLE);
}

/* Locks, what is unsent or under way, the pattern and the snarf buffer, the session. */
static void no_term_for_state(sam_term *term, struct handed *out)
{
    WANT(sam_term_state(term, &out->state), SAM_NO_HANDLE);
    WANT(sam_term_file(term, 0, &out->file), SAM_NO_HANDLE);
    WANT(sam_term_locked(term, 0, &out->is), SAM_NO_HANDLE);
    WANT(sam_term_command_locked(term, &out->is), SAM_NO_HANDLE);
    WANT(sam_term_held(term, &out->many), SAM_NO_HANDLE);
    WANT(sam_term_unsent(term, &out->a), SAM_NO_HANDLE);
    WANT(sam_term_sent(term, &out->many), SAM_NO_HANDLE);
    WANT(sam_term_under_way(term, &out->many), SAM_NO_HANDLE);
    WANT(sam_term_fault_place(term, &out->many), SAM_NO_HANDLE);
    WANT(sam_term_pattern(term, out->buffer, sizeof out->buffer, &out->len), SAM_NO_HANDLE);
    WANT(sam_term_snarfed(term, 0, out->buffer, sizeof out->buffer, &out->len, &out->more), SAM_NO_HANDLE);
    WANT(sam_term_snarf_len(term, &out->a), SAM_NO_HANDLE);
    WANT(sam_term_exited(term, &out->is), SAM_NO_HANDLE);
    WANT(sam_term_version(term, &out->version), SAM_NO_HANDLE);
}

/* A handle that is NULL, or empty: not made yet, or freed. */
static void no_handles(sam_host *host, sam_term *term)
{
    struct handed out = {
        .buffer = "unused", .runes = {9, 9, 9, 9}, .a = 1, .b = 2, .tag = 3, .version = 4, .many = 5, .len = 6, .more = 7, .is = true};
    no_host(host, &out);
    WANT(sam_term_free(term), SAM_NO_HANDLE);
    no_term_for_events(term);
    no_term_for_bytes(term, &out);
    no_term_for_files(term, &out);
    no_term_for_state(term, &out);
    /* What the pointers lead to is as it was. */
    WANT(memcmp(out.buffer, "unused", 7), 0);
    WANT(out.a == 1 && out.b == 2 && out.tag == 3 && out.version == 4 && out.many == 5 && out.len == 6 && out.more == 7, 1);
    WANT(out.is && out.runes[0] == 9, 1);
}

int main(void)
{
    sam_host host = SAM_HOST_INIT;
    sam_term term = SAM_TERM_INIT;
    no_handles(NULL, NULL);
    WANT(sam_host_new(NULL), SAM_NO_HANDLE);
    WANT(sam_term_new(NULL), SAM_NO_HANDLE);
    puts("no handles");
    no_handles(&host, &term);
    puts("handles that are not made");
    WANT(sam_host_new(&host), SAM_OK);
    WANT(sam_host_free(&host), SAM_OK);
    WANT(sam_term_new(&term), SAM_OK);
    WANT(sam_term_free(&term), SAM_OK);
    no_handles(&host, &term);
    puts("handles that were freed");
    return 0;
}
