/*
 * sessions [SESSIONS [SEED [FAULT]]]: random sessions of a client and a durable server in one process, over connections that break, with
 * crashes, takeovers, and memory that is refused.
 *
 * The user edits files, asks for all else that a client can be asked for, and puts messages, connected or not. The host's program has files
 * join, marks some as dirty, and says messages. After each step the user's copy of a file is what is shown (session_front.h). At rest it is
 * what both sides have, no lock is held, nothing waits, and each request was told, once and in order. Where nothing but the user changes a
 * file, it is what the same doings make of an array, and files, selections, marks, snarf buffer and pattern are those of an editor without
 * a network (session_local.h); so is each text that is written. In some sessions command lines change the files at any time: there no
 * rune of the user's is lost or comes back. What is held in memory is bounded by the texts and by what is under way, and all is given back.
 *
 * In the last part of a whole run some short sessions are made again and again, and each request for memory is refused in turn: all ends
 * as if none was. It ends with status 0; or 1 and what is wrong, or what was never met. With the number of a FAULT it is to fail
 * (session_host.h).
 */
#include "session_takeovers.h"

enum { SESSIONS = 400, SEED = 90, TURNS = 200, MOST_TURNS = 4000, LEFT_TURNS = 30, SHORT = 2000, LOADED = 1000000 };
enum { MOST_ANEW = 200000, MOST_FOR_A_BYTE = 24, SHORT_TURNS = 20, IN_TURN = 4, IN_A_ROW = 3 };

static bool has_closes, has_joins;
static uint64_t session_seed;
static size_t held_at_start;

/* ---- Carrying ---- */

static bool client_has_all(void)
{
    bool has = false;
    WANT(sam_client_has_all(&front->client, &has), SAM_OK);
    return has;
}

static uint64_t pick_time(uint32_t longest)
{
    switch (pick(4)) {
    case 0:
        return 0;
    case 1:
        return 1;
    case 2:
        return longest / 40;
    default:
        return pick(longest);
    }
}

/* The time passes, the server's program does its work, and bytes move both ways. */
static void carry_on(size_t most, uint32_t longest)
{
    go_on();
    pass_time(pick_time(longest));
    keep();
    do_effects(has_marks);
    if (wire.attempt != 0 && !one_in(5))
        move_up(most);
    keep();
    if (wire.attempt != 0 && !one_in(5))
        move_down(most);
}

/* ---- Rest ---- */

static bool is_at_rest(void)
{
    size_t len = 0;
    sam_effect effect;
    finish_turn();
    return sam_server_record_len(&host->server, &len) == SAM_NONE && sam_server_next_effect(&host->server, &effect) == SAM_NONE &&
           host->journal.durable == host->journal.len && client_has_all() && front->heard_count == count_records(RECORD_SAID);
}

static void carry_until_rest(void)
{
    for (int turn = 0; turn < MOST_TURNS && !is_at_rest(); turn++)
        carry_on(MOST_PIECE, SHORT);
    WANT(is_at_rest(), true);
}

/* All comes to rest, once what is typed in the command file is sent. */
static void come_to_rest(void)
{
    ask_for(SAM_EVENT_FLUSH, 0, 0, 0);
    carry_until_rest();
    for (int turn = 0; turn < LEFT_TURNS; turn++) /* what the server has sent may be on its way */
        carry_on(MOST_PIECE, SHORT);
    carry_until_rest(); /* one may have asked the other, or the connection have been lost */
}

/* Nothing waits at the client, and no lock is held. */
static void nothing_waits(void)
{
    sam_state state;
    size_t requests = 9;
    uint16_t tag = 0;
    WANT(sam_client_state(&front->client, &state), SAM_OK);
    WANT(state.held == 0 && state.pending == 0 && state.unsent == 0 && !state.command_locked, 1);
    WANT(sam_client_requests(&front->client, &requests), SAM_OK);
    WANT(requests, 0);
    WANT(sam_client_next_waiting(&front->client, 0, &tag), SAM_NONE);
    if (!has_windows)
        WANT(front->told, front->request);
    for (uint32_t number = 1; number <= front->task; number++)
        WANT(front->tasks[number].kind, 0);
    no_line_is_open();
}

/* Both sides have the same name of a file. */
static void same_name(uint16_t tag)
{
    uint8_t one[SAM_MOST_NAME_BYTES], other[sizeof one];
    size_t len = 0, other_len = 9;
    WANT(sam_client_name(&front->client, tag, one, sizeof one, &len), SAM_OK);
    WANT(sam_server_name(&host->server, tag, other, sizeof other, &other_len), SAM_OK);
    WANT(len == other_len && memcmp(one, other, len) == 0, 1);
}

/* The client's file, the user's copy of it, and the server's file are one text. */
static void same_at_both(uint16_t tag)
{
    static struct text text;
    sam_file file;
    bool is_dirty = false, is_unsaved = true;
    uint32_t waiting = 9;
    WANT(sam_client_file(&front->client, tag, &file), SAM_OK);
    WANT(file.is_open && !file.is_locked && (file.is_free || tag == COMMAND_FILE), 1);
    text_of_server(&host->server, &text, tag);
    WANT(is_same_text(&text, &front->copies[tag].shown), true);
    WANT(file.len, text.len);
    same_as_shown(tag);
    same_name(tag);
    WANT(sam_client_waiting(&front->client, tag, &waiting), SAM_OK);
    WANT(waiting, 0);
    WANT(sam_client_is_unsaved(&front->client, tag, &is_unsaved), SAM_OK);
    WANT(sam_server_is_dirty(&host->server, tag, &is_dirty), SAM_OK);
    WANT(is_unsaved, is_dirty);
    if (!is_known() && tag != COMMAND_FILE)
        same_typed(&text, tag);
}

/* The messages of both programs came once and in order. */
static void same_messages(void)
{
    const struct journal *journal = &host->journal;
    size_t heard = 0, came = 0;
    for (size_t i = 0; i < journal->count; i++)
        if (journal->bytes[journal->records[i].body] == RECORD_SAID)
            WANT(front->heard[heard++], sum_of(journal->bytes + journal->records[i].body + 1, journal->records[i].len - 1));
    WANT(heard, front->heard_count);
    for (size_t i = 0; i < host->effect_count; i++)
        if (host->effects[i].kind == SAM_EFFECT_HEAR && host->effects[i].asks != SAM_NOTE_WRITE)
            WANT(came < front->put_count && front->put[came++] == host->effects[i].sum, 1);
    WANT(came, front->put_count);
}

/* What was written, and what was closed, is what the user asked for, in order. */
static void same_effects(void)
{
    size_t wanted = 0;
    for (size_t i = 0; i < host->effect_count; i++) {
        const struct effect *effect = &host->effects[i], *should = &front->wanted[wanted];
        if (effect->kind == SAM_EFFECT_HEAR)
            continue;
        WANT(wanted++ < front->wanted_count, 1);
        WANT(effect->kind == should->kind && effect->tag == should->tag, 1);
        WANT(effect->sum == should->sum || !is_known(), 1);
        if (effect->kind == SAM_EFFECT_WRITE)
            WANT(request_of_write(i), should->request); /* its message came right before */
    }
    WANT(wanted, front->wanted_count);
}

/* ---- As without a network ---- */

static void same_snarfed(void)
{
    static uint8_t one[1 << 16], other[sizeof one];
    size_t len = 0, other_len = 0;
    uint32_t runes = 0;
    WANT(sam_server_snarf(&host->server, 0, one, sizeof one, &len, &runes), SAM_OK);
    WANT(sam_host_snarf(&local_host, 0, other, sizeof other, &other_len, &runes), SAM_OK);
    WANT(len == other_len && memcmp(one, other, len) == 0, 1);
    WANT(sam_client_snarfed(&front->client, 0, one, sizeof one, &len, &runes), SAM_OK);
    WANT(sam_overlay_snarfed(&local, 0, other, sizeof other, &other_len, &runes), SAM_OK);
    WANT(len == other_len && memcmp(one, other, len) == 0, 1);
    WANT(sam_client_pattern(&front->client, one, sizeof one, &len), SAM_OK);
    WANT(sam_overlay_pattern(&local, other, sizeof other, &other_len), SAM_OK);
    WANT(len == other_len && memcmp(one, other, len) == 0, 1);
}

/* A file is as it is without a network, open or not. */
static void same_file(uint16_t tag)
{
    static struct text text, local_one;
    sam_file file, should;
    bool has = false, local_has = true;
    WANT(sam_client_file(&front->client, tag, &file), SAM_OK);
    WANT(sam_overlay_file(&local, tag, &should), SAM_OK);
    WANT(file.is_known == should.is_known && file.is_open == should.is_open, 1);
    if (tag == COMMAND_FILE || front->copies[tag].has_dot)
        WANT(file.dot_start == should.dot_start && file.dot_end == should.dot_end, 1);
    WANT(has_windows || (file.view_start == should.view_start && file.view_end == should.view_end), 1);
    WANT(was_marked || file.is_changed == should.is_changed || (should.is_changed && is_as_saved(tag)), 1);
    WANT(sam_server_has_file(&host->server, tag, &has), SAM_OK);
    WANT(sam_host_has_file(&local_host, tag, &local_has), SAM_OK);
    WANT(has, local_has);
    if (!has)
        return;
    text_of_server(&host->server, &text, tag);
    local_text(&local_one, tag);
    WANT(is_same_text(&text, &local_one), true);
    WANT(tag == COMMAND_FILE || tag == LINES_FILE || is_same_text(&text, &front->copies[tag].whole), 1);
}

static void same_as_local(void)
{
    uint16_t current = 0, local_current = 0;
    sam_status status = sam_client_current(&front->client, &current);
    WANT(sam_overlay_current(&local, &local_current), status);
    WANT(current, local_current);
    WANT(front->refused_count == local_refused_count, 1);
    WANT(memcmp(front->refused, local_refused, local_refused_count * sizeof *local_refused), 0);
    same_snarfed();
    for (uint16_t tag = 0; tag < front->tags; tag++)
        same_file(tag);
}

static void load_all(void)
{
    for (uint16_t tag = 0; tag < front->tags; tag++)
        if (is_open(tag) && (tag == COMMAND_FILE || front->copies[tag].is_wanted))
            ask_for(SAM_EVENT_LOAD, tag, 0, LOADED);
}

/* All that windows show is loaded by itself, and the rest of these files. */
static void load_seen(void)
{
    for (int turn = 0; turn < MOST_TURNS && !has_seen_all(); turn++)
        carry_on(MOST_PIECE, SHORT);
    WANT(has_seen_all(), true);
}

/* All comes to rest, is loaded, and is compared. */
static void rest(void)
{
    load_seen();
    come_to_rest();
    load_all();
    come_to_rest();
    nothing_waits();
    same_messages();
    same_effects();
    for (uint16_t tag = 0; tag < front->tags; tag++)
        if (tag == COMMAND_FILE || front->copies[tag].is_wanted)
            same_at_both(tag);
    if (is_known())
        same_as_local();
}

/* ---- What happens ---- */

static struct meeting crashes = {"crashes", 0}, breaks = {"breaks", 0}, silences = {"silent connections", 0}, marks = {"marks", 0},
                      joins = {"files that join", 0}, writes = {"writes", 0}, host_notes = {"messages of the host", 0},
                      exits = {"exits", 0};

static const char *const texts[] = {"", "a", "one two\nthree\n", "ba-na-na\nboom\n", "\xE6\x97\xA5\xE6\x9C\xAC \xC3\xA9\n"};

/* The text with which a file begins: each time the same for a session. */
static void first_text(struct text *text, uint16_t tag)
{
    static struct text one;
    uint32_t which = (uint32_t)(session_seed + tag) % 5, times = (session_seed + tag) % 3 == 0 ? 40 : 1;
    read_text(&one, (const uint8_t *)texts[which], strlen(texts[which]));
    text->len = 0;
    while (times-- > 0)
        change(text, text->len, 0, one.runes, one.len);
    if (tag == LINES_FILE)
        lines_text(text);
}

/* A file joins at the host. */
static void join_file(uint16_t tag)
{
    static struct text text;
    first_text(&text, tag);
    WANT(join_host(names[tag], &text), tag);
}

static void join(void)
{
    uint16_t tag = front->tags;
    if (!has_joins || tag == MOST_FILES)
        return;
    join_file(tag);
    first_text(&front->copies[tag].whole, tag);
    note_saved(tag);
    if (is_known())
        join_local(names[tag], &front->copies[tag].whole);
    front->tags++;
    ask_for(SAM_EVENT_OFFER_VERSION, 0, 0, 0);
    open_file(tag);
    joins.count++;
}

/* The host is killed. A file that had joined is lost if its record was not durable: its program has it join again. */
static void crash(void)
{
    size_t tags = 0;
    crash_host();
    cut_wire();
    WANT(sam_server_tags(&host->server, &tags), SAM_OK);
    for (size_t tag = tags; has_joins && tag < front->tags; tag++)
        join_file((uint16_t)tag);
    crashes.count++;
}

static void break_off(void)
{
    breaks.count += wire.attempt != 0;
    cut_wire();
}

static void fall_silent(void)
{
    silences.count += wire.attempt != 0 && !wire.is_silent;
    wire.is_silent = wire.attempt != 0;
}

/* The host's program marks a file as dirty. */
static void mark(void)
{
    sam_status status;
    uint16_t tag = (uint16_t)(FIRST + pick(front->tags - FIRST));
    if (!has_marks)
        return;
    TAKES_WITH(sam_server_mark_dirty(&host->server, COMMAND_FILE), SAM_MARK_COMMAND_FILE);
    TAKES_WITH(sam_server_mark_dirty(&host->server, NO_SUCH_FILE), SAM_NONE);
    finish_turn();
    while ((status = sam_server_mark_dirty(&host->server, tag)) == SAM_NO_MEMORY)
        ;
    if (status == SAM_MARK_NOT_ANNOUNCED || status == SAM_NONE) {
        met(status);
        return;
    }
    took("a mark", __LINE__, status, SAM_OK);
    was_marked = true;
    marks.count++;
}

static void host_says(void)
{
    uint8_t words[64];
    size_t len = pick(sizeof words);
    pick_bytes(words, len);
    TAKES(sam_server_say(&host->server, words, len));
    host_notes.count++;
    TAKES(sam_server_acknowledge(&host->server));
    TAKES(sam_server_ask(&host->server));
}

/* ---- Sessions ---- */

/* A command line runs on a file while nothing else changes it, and does to the text what it does to an array. */
static void run_at_rest(void)
{
    uint16_t tag = pick_file();
    if (tag == 0 || front->copies[tag].shown.len > MOST_KEPT / 4)
        return;
    come_to_rest();
    if (is_open(COMMAND_FILE) && is_open(tag))
        run_on_array(&front->copies[tag].whole, run_line(tag));
    come_to_rest();
    lines_at_rest.count++;
}

static void ask_too_much(void)
{
    ask_for(SAM_EVENT_FLUSH, 0, 0, 0);
    if (crowd())
        carry_until_rest();
}

static void run(void)
{
    if (lines == LINES_AT_REST && one_in(4))
        run_at_rest();
    if (lines == LINES_ANY_TIME)
        run_any_time();
}

static void change_files(void)
{
    if (has_closes && one_in(3))
        close_file();
    else if (!has_joins)
        make_file();
    else
        join();
}

/* What happens, and how often. */
static const struct {
    void (*happens)(void);
    uint32_t weight;
} happenings[] = {
    {edit, 280},       {edit_many, 30},    {write_file, 60},   {select_runes, 60}, {look_round, 80},   {show_part, 40},
    {of_session, 16},  {type_command, 20}, {put_note, 40},     {tend_line, 16},    {edit_wrongly, 16}, {ask_wrongly, 12},
    {ask_too_much, 1}, {run, 60},          {change_files, 24}, {mark, 20},         {host_says, 24},    {break_off, 24},
    {crash, 24},       {fall_silent, 5},   {come_late, 20},    {take_over, 6},     {begin_task, 40},   {see_file, 60},
};

static void happen(void)
{
    uint32_t all = 0, at = 0;
    for (size_t i = 0; i < sizeof happenings / sizeof happenings[0]; i++)
        all += happenings[i].weight;
    uint32_t drawn = pick(all);
    while (drawn >= happenings[at].weight)
        drawn -= happenings[at++].weight;
    happenings[at].happens();
}

/* How many bytes the requests that wait have. */
static size_t bytes_of_requests(void)
{
    size_t bytes = 0;
    for (uint64_t number = front->told + 1; number <= front->request; number++)
        bytes += sizeof(sam_event) + front->requests[number % MOST_REQUESTS].len;
    return bytes;
}

/* The memory that is held is bounded by the texts, and by what waits and what is under way. */
static void bounded(void)
{
    sam_line_details details;
    uint64_t put = 0, acknowledged = 0;
    size_t bytes = host->journal.len - host->journal.durable + bytes_of_requests();
    for (uint16_t tag = 0; tag < front->tags; tag++)
        bytes += MOST_RUNE_BYTES * (front->copies[tag].shown.len + front->copies[tag].whole.len);
    WANT(sam_client_describe(&front->client, front->now, &details), SAM_OK);
    WANT(sam_server_put_count(&host->server, &put), SAM_OK);
    WANT(sam_server_acknowledged(&host->server, &acknowledged), SAM_OK);
    bytes += (size_t)(details.put_count - details.acknowledged + put - acknowledged);
    size_t held = held_memory() - held_at_start - local_held;
    if (planted == MEMORY_HOARDED)
        held += 1 << 24;
    if (held > MOST_ANEW + MOST_FOR_A_BYTE * bytes)
        printf("%zu bytes are held for %zu\n", held, bytes);
    WANT(held <= MOST_ANEW + MOST_FOR_A_BYTE * bytes, 1);
}

/* Chooses what a session has. */
static void choose(uint64_t seed)
{
    static const enum lines any[] = {NO_LINES, NO_LINES, LINES_AT_REST, LINES_ANY_TIME};
    begin_chance(seed);
    session_seed = seed;
    lines = PICK_OF(any);
    has_closes = lines == NO_LINES && pick(2);
    has_takeovers = !has_closes && pick(2);
    has_marks = !has_closes && one_in(3);
    has_joins = !has_takeovers && pick(2);
    has_windows = one_in(3);
    was_marked = false;
    typed_count = 0;
    memset(typed_in, 0, sizeof typed_in);
}

static void begin(uint64_t seed)
{
    uint8_t id[SAM_LINK_ID_BYTES];
    choose(seed);
    held_at_start = held_memory();
    local_held = 0;
    make_local();
    pick_bytes(id, sizeof id);
    memset(&wire, 0, sizeof wire);
    begin_front(id, false);
    begin_program(host, id);
    DONE(sam_server_new(&host->server, id));
    for (front->tags = FIRST; front->tags < FIRST_NEW; front->tags++) {
        uint16_t tag = front->tags;
        join_file(tag);
        first_text(&front->copies[tag].whole, tag);
        note_saved(tag);
        join_local(names[tag], &front->copies[tag].whole);
    }
    keep_all();
    open_files();
    if (!one_in(4))
        come_to_rest();
    else if (one_in(4))
        take_over(); /* before a host has welcomed the first terminal */
}

/* The user ends the session, and nothing is taken any more. */
static void leave(void)
{
    bool is_done = false;
    sam_state state;
    ask_for(SAM_EVENT_EXIT, 0, 0, 0);
    ask_for(SAM_EVENT_SELECT, FIRST, 0, 0);
    come_to_rest();
    WANT(sam_server_is_done(&host->server, &is_done), SAM_OK);
    WANT(sam_client_state(&front->client, &state), SAM_OK);
    WANT(is_done && state.exited, 1);
    WANT(front->told, front->request);
    WANT(front->refused[front->refused_count - 1], SAM_REFUSAL_EXITED);
    refuses_edit(FIRST, 0, 0, BYTES("x"), SAM_REFUSAL_EXITED);
    exits.count++;
}

static void end(void)
{
    free_local();
    WANT(sam_client_free(&front->client), SAM_OK);
    if (planted != MEMORY_KEPT)
        WANT(sam_server_free(&host->server), SAM_OK);
    WANT(held_memory() - held_at_start, 0);
}

static void session(uint64_t seed, int turns)
{
    begin(seed);
    for (int turn = 0; turn < turns; turn++) {
        happen();
        static const size_t most[] = {7, 60, MOST_PIECE};
        carry_on(PICK_OF(most), LONGEST);
        bounded();
    }
    rest();
    writes.count += front->wanted_count;
    if (pick(2))
        leave();
    end();
}

/* ---- A run ---- */

static bool is_over;

static void tell_seed(void)
{
    if (!is_over)
        printf("in the session of seed %lu\n", (unsigned long)session_seed);
}

/* Whether each kind of request was asked for and has acted, and what else a run is to have met. */
static bool all_met(void)
{
    static const sam_status statuses[] = {SAM_NO_MEMORY,
                                          SAM_UNFINISHED,
                                          SAM_NOT_TEXT,
                                          SAM_NONE,
                                          SAM_WAITING,
                                          SAM_TOO_MANY,
                                          SAM_MARK_COMMAND_FILE,
                                          SAM_MARK_NOT_ANNOUNCED,
                                          SAM_REFUSAL_EXITED,
                                          SAM_REFUSAL_NO_FILE,
                                          SAM_REFUSAL_NOT_OPEN,
                                          SAM_REFUSAL_BAD_POSITION,
                                          SAM_REFUSAL_TOO_LONG,
                                          SAM_REFUSAL_TEXT_TOO_LONG,
                                          SAM_REFUSAL_COMMAND_FILE,
                                          SAM_REFUSAL_BAD_VERSION,
                                          SAM_LINK_OLD_ATTEMPT,
                                          SAM_LINK_NOT_OPEN,
                                          SAM_LINK_NO_SESSION,
                                          SAM_LINK_OTHER_SESSION,
                                          SAM_SERVER_EFFECT_WAITS};
    const struct meeting rows[] = {notes_put,        notes_heard,    host_notes,   connections, breaks,        silences,      drops,
                                   lost_up,          lost_down,      untold_edits, late,        crashes,       torn,          takeovers,
                                   lost_takeovers,   joins,          marks,        writes,      failed_writes, closed,        made_files,
                                   lines_at_rest,    lines_any_time, lines_sent,   crowds,      exits,         shared_writes, splices_taken,
                                   splices_together, edits_together, edits_told,   unfinished,    tasks_begun,   shared_tasks,  answers,
                                   answered,         unanswered,     refused_tasks, windows,      own_loads,     lines_told,    lapsed};
    unsigned long missing = tell_met(rows, sizeof rows / sizeof rows[0], statuses, sizeof statuses / sizeof statuses[0]);
    for (int kind = SAM_EVENT_SELECT; kind < KINDS; kind++)
        if (acted[kind] == 0)
            missing++, printf("never acted: a request of the kind %d, of %lu\n", kind, asked[kind]);
    return missing == 0;
}

/* A short session again and again, in which so many requests for memory in a row are refused, from each on. Returns how many there are. */
static unsigned long refuse_in_turn(uint64_t seed, uint64_t count)
{
    uint64_t first = 1, before = 0;
    do {
        before = refused_memory();
        refuse_requests(first++, count);
        session(seed, SHORT_TURNS);
    } while (refused_memory() > before);
    refuse_requests(0, 0);
    return (unsigned long)first - 2;
}

int main(int argc, char **argv)
{
    static const uint32_t rates[] = {0, 300, 0, 100, 0, 40};
    uint64_t count = argc > 1 ? strtoull(argv[1], NULL, 10) : SESSIONS, seed = argc > 2 ? strtoull(argv[2], NULL, 10) : SEED;
    planted = argc > 3 ? (enum planted)strtoul(argv[3], NULL, 10) : NOTHING_PLANTED;
    atexit(tell_seed);
    for (uint64_t number = seed; number < seed + count; number++) {
        refuse_memory(number, rates[number % (sizeof rates / sizeof rates[0])]);
        session(number, TURNS);
    }
    refuse_memory(0, 0);
    unsigned long in_turn = 0;
    for (uint64_t number = seed; number < seed + IN_TURN && count >= SESSIONS; number++)
        in_turn += refuse_in_turn(number, number % 2 == 0 ? 1 : IN_A_ROW);
    is_over = true;
    if (count >= SESSIONS)
        printf("%lu requests for memory refused in turn\n", in_turn);
    if (count >= SESSIONS && !all_met())
        return 1;
    printf("%lu sessions: all as the host has them\n", (unsigned long)count);
    return 0;
}
