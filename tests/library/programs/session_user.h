/* session_user.h: what the user of a client does at random, and what he is refused. */
#ifndef SESSION_USER_H
#define SESSION_USER_H

#include "session_tasks.h"

enum { CROWD = 1000, MOST_ATTEMPTS = 4096, TOO_LONG = SAM_MOST_RUNES + 1, TOO_LONG_SNARF = SAM_MOST_SNARFED_BYTES + 1, TOO_LONG_TYPED = SAM_MOST_IN_TYPE + 1 };

/* Lines of the command file, which leave each rune that the user types once; and what becomes of a text by them. */
enum where { NOWHERE, EACH, AT_START, AT_END };
static const struct command_line {
    const char *line;
    enum where where;
    const char *find, *by;
} command_lines[] = {
    {",x/a/c/bb/\n", EACH, "a", "bb"},  {",x/bb/c/a/\n", EACH, "bb", "a"}, {"$a/end/\n", AT_END, "", "end"},
    {"0i/top/\n", AT_START, "", "top"}, {",x/o/d\n", EACH, "o", ""},       {"zz\n", NOWHERE, "", ""},
    {"#0,#9p\n", NOWHERE, "", ""},
};
enum { COMMAND_LINES = sizeof command_lines / sizeof command_lines[0] };

static struct meeting notes_put = {"messages put", 0}, closed = {"closed files", 0}, made_files = {"new files", 0},
                      crowds = {"crowds of requests", 0}, lines_at_rest = {"lines at rest", 0}, lines_any_time = {"lines at any time", 0},
                      lines_sent = {"lines that were sent", 0};

/* ---- Files ---- */

/* The replacement is refused by this status, and nothing changes. */
static void refuses_edit(uint16_t tag, uint32_t start, uint32_t end, const uint8_t *text, size_t len, sam_status should)
{
    sam_status status;
    while ((status = met(sam_client_replace(&front->client, tag, start, end, text, len))) == SAM_NO_MEMORY)
        ;
    WANT(status, should);
    same_as_shown(tag);
}

static void edit(void)
{
    uint16_t tag = pick_file();
    if (tag != 0)
        edit_file(tag);
}

static void edit_many(void)
{
    uint16_t tag = pick_file();
    if (tag != 0)
        edit_places(tag);
}

static void write_file(void)
{
    uint16_t tag = pick_file();
    if (tag == 0)
        return;
    bool is_own = true;
    uint32_t task = one_in(2) ? write_as_task(tag, &is_own) : (is_own = ask_for(SAM_EVENT_WRITE, tag, 0, 0), 0);
    note_saved(tag);
    if (!is_own || (planted == WRITE_UNKNOWN && one_in(8)))
        return;
    want_effect(SAM_EFFECT_WRITE, tag);
    front->wanted[front->wanted_count - 1].request = task;
}

/* The user closes a file for good that he has changed. The server tells what it held. */
static void close_file(void)
{
    uint16_t tag = pick_file();
    if (tag == 0 || !is_known() || is_as_saved(tag))
        return;
    ask_for(SAM_EVENT_CLOSE, tag, 0, 0);
    front->copies[tag].is_wanted = false;
    refuses_edit(tag, 0, 0, BYTES("x"), SAM_REFUSAL_NOT_OPEN);
    want_effect(SAM_EFFECT_CLOSE, tag);
    closed.count++;
}

static void make_file(void)
{
    if (front->tags == MOST_FILES)
        return;
    ask_for(SAM_EVENT_NEW_FILE, 0, 0, 0);
    begin_copy(front->tags);
    front->copies[front->tags++].is_wanted = true;
    made_files.count++;
}

/* ---- Selections, views, snarf buffer ---- */

/* Selects some runes of a file. Returns its tag, or 0 if there is none. */
static uint16_t select_in_file(void)
{
    uint16_t tag = pick_file();
    if (tag == 0)
        return 0;
    uint32_t len = shown_len(tag), start = pick(len + 1), count = pick(6);
    ask_for(SAM_EVENT_SELECT, tag, start, count < len - start ? start + count : len);
    front->copies[tag].has_dot = true;
    return tag;
}

static void select_runes(void)
{
    select_in_file();
}

/* The user looks for what he has selected, and for other things. */
static void look_round(void)
{
    static const sam_event_kind kinds[] = {SAM_EVENT_LOOK,  SAM_EVENT_LOOK, SAM_EVENT_SEARCH, SAM_EVENT_SNARF,
                                           SAM_EVENT_CHECK, SAM_EVENT_WORK, SAM_EVENT_OPEN};
    uint16_t tag = select_in_file();
    if (tag != 0)
        ask_for(PICK_OF(kinds), tag, 0, 0);
}

static void show_part(void)
{
    static const sam_event_kind kinds[] = {SAM_EVENT_VIEW, SAM_EVENT_LOAD, SAM_EVENT_DCLICK, SAM_EVENT_SCROLL};
    uint16_t tag = pick_file();
    if (tag == 0)
        return;
    sam_event_kind kind = PICK_OF(kinds);
    ask_for(kind, tag, pick(shown_len(tag) + 1), kind == SAM_EVENT_SCROLL ? pick(4) : pick(400));
    front->copies[tag].has_dot |= kind == SAM_EVENT_DCLICK;
}

static void of_session(void)
{
    static const sam_event_kind kinds[] = {SAM_EVENT_FLUSH, SAM_EVENT_GET_SNARF, SAM_EVENT_OFFER_VERSION, SAM_EVENT_OPEN_CMD};
    ask_for(PICK_OF(kinds), 0, 0, 0);
}

/* The user types, cuts and pastes in the command file, but ends no line: if another does, no command has this name. */
static void type_command(void)
{
    if (lines == NO_LINES && pick(2))
        ask_for(SAM_EVENT_DCLICK, COMMAND_FILE, 0, 0);
    if (pick(2)) {
        ask_text(SAM_EVENT_SET_SNARF, "Q\xE2\x82\xAC");
        ask_for(SAM_EVENT_PASTE_CMD, COMMAND_FILE, 0, 0);
    } else if (pick(2)) {
        ask_text(SAM_EVENT_TYPE_CMD, "Q typed");
    } else {
        ask_for(SAM_EVENT_CUT_CMD, COMMAND_FILE, 0, 0);
    }
}

/* ---- Command lines ---- */

/* Whether the runes are found at the place. */
static bool is_found(const struct text *text, uint32_t place, const char *find)
{
    uint32_t len = (uint32_t)strlen(find);
    bool is_same = len <= text->len - place;
    for (uint32_t i = 0; i < len && is_same; i++)
        is_same = text->runes[place + i] == (uint32_t)find[i];
    return is_same;
}

/* What becomes of a text by a command line. */
static void run_on_array(struct text *text, const struct command_line *command)
{
    uint32_t by[8], came = 0, gone = (uint32_t)strlen(command->find);
    for (const char *at = command->by; *at; at++)
        by[came++] = (uint32_t)*at;
    if (command->where == AT_START || command->where == AT_END)
        change(text, command->where == AT_START ? 0 : text->len, 0, by, came);
    for (uint32_t place = 0; command->where == EACH && place < text->len;) {
        bool is_there = is_found(text, place, command->find);
        if (is_there)
            change(text, place, gone, by, came);
        place += is_there ? came : 1;
    }
}

/* The text of the file from which lines are sent. */
static void lines_text(struct text *text)
{
    text->len = 0;
    for (size_t i = 0; i < COMMAND_LINES; i++)
        for (const char *at = command_lines[i].line; *at; at++)
            text->runes[text->len++] = (uint32_t)*at;
}

/* Sends a line from the file of the lines to the command file. */
static void send_line(size_t number)
{
    uint32_t start = 0;
    for (size_t i = 0; i < number; i++)
        start += (uint32_t)strlen(command_lines[i].line);
    ask_for(SAM_EVENT_SELECT, LINES_FILE, start, start + (uint32_t)strlen(command_lines[number].line));
    ask_for(SAM_EVENT_SEND, LINES_FILE, 0, 0);
    lines_sent.count++;
}

/* The client has taken these events as its newest requests. */
static void take_requests(const sam_event *events, size_t count, const char *typed)
{
    for (size_t i = 0; i < count; i++) {
        bool types = events[i].kind == SAM_EVENT_TYPE_CMD;
        asked[events[i].kind]++;
        if (is_known())
            ask_local(&events[i], (const uint8_t *)typed, types ? strlen(typed) : 0);
        front->request++;
        note_request(&events[i], types ? strlen(typed) : 0);
    }
}

/* Has a command line run by one call. Where memory is out, the first of its requests may have been taken. */
static void run_as_one(uint16_t tag, const char *typed)
{
    const sam_event events[] = {{.kind = SAM_EVENT_WORK, .tag = tag}, {.kind = SAM_EVENT_TYPE_CMD}};
    size_t before = requests_waiting(), taken[MOST_ATTEMPTS], tries = 0, all = 0;
    uint64_t number = 0;
    sam_status status;
    while ((status = met(sam_client_run(&front->client, tag, (const uint8_t *)typed + 1, strlen(typed) - 2, &number))) != SAM_OK) {
        WANT(status == SAM_NO_MEMORY || (status == SAM_WAITING && all == 0), 1);
        WANT(tries < MOST_ATTEMPTS, 1);
        taken[tries] = requests_waiting() - before;
        all += taken[tries++];
        if (status == SAM_WAITING)
            go_on();
        before = requests_waiting();
    }
    note_own_loads(number - 2 - all);
    for (size_t i = 0; i < tries; i++)
        take_requests(events, taken[i], typed);
    take_requests(events, 2, typed);
    WANT(front->request, number);
    front->requests[number % MOST_REQUESTS].is_run = true;
}

/* Has a command line run on a file, by one call, typed or sent. Returns the line. */
static const struct command_line *run_line(uint16_t tag)
{
    size_t number = pick(COMMAND_LINES);
    char typed[32];
    if (has_windows && is_open(COMMAND_FILE) && one_in(2)) {
        snprintf(typed, sizeof typed, "\n%s", command_lines[number].line);
        run_as_one(tag, typed);
        return &command_lines[number];
    }
    ask_for(SAM_EVENT_WORK, tag, 0, 0);
    if (front->copies[LINES_FILE].is_wanted && is_open(LINES_FILE) && shown_len(LINES_FILE) > 0 && pick(2)) {
        send_line(number);
    } else {
        snprintf(typed, sizeof typed, "\n%s", command_lines[number].line);
        ask_text(SAM_EVENT_TYPE_CMD, typed);
    }
    return &command_lines[number];
}

static void run_any_time(void)
{
    uint16_t tag = pick_file();
    if (tag == 0 || !is_open(COMMAND_FILE) || front->copies[tag].shown.len > MOST_KEPT / 4)
        return;
    run_line(tag);
    lines_any_time.count++;
}

/* ---- Messages ---- */

static void put_note(void)
{
    uint8_t note[64];
    size_t len = 1 + pick(sizeof note - 1);
    pick_bytes(note, len);
    note[0] |= 0x80; /* it is none that asks for something */
    DONE(sam_client_put_note(&front->client, note, len, front->now));
    WANT(front->put_count < MOST_NOTES, 1);
    notes_put.count++;
    if (planted != NOTE_UNKNOWN || !one_in(4))
        front->put[front->put_count++] = sum_of(note, len);
}

static void tend_line(void)
{
    if (pick(2))
        WANT(sam_client_address_changed(&front->client, front->now), SAM_OK);
    DONE(sam_client_acknowledge(&front->client));
}

/* ---- What is refused ---- */

static void edit_wrongly(void)
{
    static uint8_t million[TOO_LONG];
    uint16_t tag = pick_file();
    refuses_edit(NO_SUCH_FILE, 0, 0, BYTES("x"), SAM_REFUSAL_NO_FILE);
    if (is_open(COMMAND_FILE))
        refuses_edit(COMMAND_FILE, 0, 0, BYTES("x"), SAM_REFUSAL_COMMAND_FILE);
    if (tag == 0)
        return;
    uint32_t len = shown_len(tag);
    refuses_edit(tag, 0, 0, BYTES("a\xFF"), SAM_NOT_TEXT);
    refuses_edit(tag, len, len + 1, BYTES("x"), SAM_REFUSAL_BAD_POSITION);
    refuses_edit(tag, len + 1, len, BYTES("x"), SAM_REFUSAL_BAD_POSITION);
    if (!one_in(8))
        return;
    memset(million, 'x', sizeof million);
    refuses_edit(tag, 0, 0, million, sizeof million, SAM_REFUSAL_TOO_LONG);
}

/* The request is not taken, by this status, and the number is as it was. */
static void refuses_request(const sam_event *event, const uint8_t *text, size_t len, sam_status should)
{
    uint64_t number = UINT64_MAX;
    sam_status status;
    while ((status = met(sam_client_ask(&front->client, event, text, len, &number))) == SAM_NO_MEMORY)
        ;
    if (status == SAM_WAITING)
        go_on(), refuses_request(event, text, len, should);
    else
        WANT(status, should);
    WANT(number == UINT64_MAX, 1);
}

static void ask_text_of(sam_event_kind kind, size_t len)
{
    static uint8_t text[TOO_LONG_SNARF];
    const sam_event event = {.kind = kind};
    memset(text, 'Q', len);
    ask(&event, text, len);
}

/* Requests that are refused at once, and others that are refused when they come to act. */
static void ask_wrongly(void)
{
    const sam_event snarf = {.kind = SAM_EVENT_SET_SNARF}, none = {.kind = SAM_EVENT_PASTE_CMD + 1},
                    version = {.kind = SAM_EVENT_OFFER_VERSION};
    uint16_t tag = pick_file();
    refuses_request(&snarf, BYTES("\xFF"), SAM_NOT_TEXT);
    refuses_request(&none, NULL, 0, SAM_NONE);
    ask_for(SAM_EVENT_OPEN, NO_SUCH_FILE, 0, 0);
    ask_for(SAM_EVENT_WRITE, COMMAND_FILE, 0, 0);
    write_wrongly();
    ask(&version, NULL, 0);
    if (lines == NO_LINES)
        ask_for(SAM_EVENT_SELECT, LINES_FILE, 0, 0);
    if (tag != 0)
        ask_for(SAM_EVENT_SELECT, tag, 0, SAM_MOST_RUNES);
    if (one_in(4))
        ask_text_of(SAM_EVENT_TYPE_CMD, TOO_LONG_TYPED);
    if (one_in(8))
        ask_text_of(SAM_EVENT_SET_SNARF, TOO_LONG_SNARF);
}

/* More requests than may wait: one is not taken. Returns whether there was a file to ask for. */
static bool crowd(void)
{
    uint16_t tag = pick_file();
    size_t waiting = 0;
    const sam_event event = {.kind = SAM_EVENT_SELECT, .tag = tag};
    for (int i = 0; i < CROWD && waiting < CROWD && tag != 0; i++) {
        ask_for(SAM_EVENT_SELECT, tag, 0, 0);
        WANT(sam_client_requests(&front->client, &waiting), SAM_OK);
    }
    if (waiting == CROWD)
        refuses_request(&event, NULL, 0, SAM_TOO_MANY);
    crowds.count += waiting == CROWD;
    return waiting == CROWD;
}

#endif
