/*
 * session_front.h: a client and its user's program, which has a copy of each file: it takes what the user does at once, and then the
 * splices alone, and is what is shown after each step. Beside it stands what the same edits make of an array of runes, where nothing but
 * the user's own doings changes a file: then all is done in session_local.h, too. Each rune that is typed from TYPED on is typed once.
 */
#ifndef SESSION_FRONT_H
#define SESSION_FRONT_H

#include "copies.h"
#include "session_host.h"
#include "session_local.h"

enum { COMMAND_FILE, FIRST, SECOND, LINES_FILE, FIRST_NEW, MOST_FILES = 8, NO_SUCH_FILE = 40 };
enum {
    MOST_TYPED = 60000,
    MOST_NOTES = 4096,
    MOST_SPLICES = 32,
    MOST_SPLICED = 4096,
    LONG_EDIT = 600,
    MOST_TOGETHER = 4,
    MOST_REQUESTS = 1 << 14,
    MOST_PRINTED = 1 << 16,
    MOST_TASKS = 1 << 10,
    KINDS = SAM_EVENT_PASTE_CMD + 1
};

#define TYPED 0x20000U /* the first rune that is typed once */

/* What a session has beside edits and other doings that no line of the command file is needed for. */
enum lines { NO_LINES, LINES_AT_REST, LINES_ANY_TIME };

/* A file as the user's program has it. */
struct copy {
    struct text shown; /* what the user did at once, and then the splices */
    struct text whole; /* what his doings make of an array */
    uint64_t saved;    /* the sum of the array as it was written last, or began */
    bool is_wanted;    /* it was asked to be opened, and not to be closed */
    bool has_text;     /* its text has come since: runes that are typed before come behind it */
    bool is_seen;      /* a window shows some of it */
    bool has_dot;      /* no edit came behind the last selection: edits that wait join, so where they meet a dot it may be on either side */
};

/* A client with its program. */
struct front {
    sam_client client;
    uint64_t now; /* in milliseconds */
    struct copy copies[MOST_FILES];
    uint16_t tags;
    uint64_t request, told; /* the last number that was handed out, and the last that was told */
    struct {
        sam_event_kind kind; /* 0 of a load that the client makes by itself */
        uint16_t tag;
        size_t len;                     /* bytes of its text */
        bool is_run;                    /* it types the newline of a command line that was not told */
    } requests[MOST_REQUESTS];          /* by their numbers */
    struct effect wanted[MOST_EFFECTS]; /* writes, each with the number of its task, and texts of closed files */
    uint64_t wanted_by[MOST_EFFECTS];   /* the numbers of the requests for these */
    size_t wanted_count;
    uint64_t put[MOST_NOTES], heard[MOST_NOTES]; /* sums of messages */
    size_t put_count, heard_count;
    struct task {
        uint8_t kind;        /* of its message; 0 once it has ended */
    } tasks[MOST_TASKS + 1]; /* by their numbers */
    uint32_t task;           /* the last number that was handed out */
    bool is_over;            /* another terminal has the session */
    sam_status refused[MOST_REFUSED]; /* why requests were refused, in their order */
    size_t refused_count;
};
static struct front fronts[2];
static struct front *front = fronts;

static enum lines lines;
static bool has_windows; /* the client loads by itself */
static uint32_t typed_count;
static uint16_t typed_in[MOST_TYPED]; /* of each rune that was typed the file that has it, or 0 */
static unsigned long asked[KINDS], acted[KINDS];
static struct meeting shared_writes = {"writes that wait already", 0}, splices_taken = {"splices", 0}, edits_told = {"edits told", 0},
                      notes_heard = {"messages heard", 0}, answered = {"tasks answered", 0}, unanswered = {"tasks of a session that is over", 0},
                      refused_tasks = {"tasks whose write is refused", 0}, own_loads = {"loads by itself", 0}, untold_edits = {"edits without memory", 0},
                      splices_together = {"splices of many steps", 0}, edits_together = {"edits in one call", 0},
                      lines_told = {"lines that have run", 0}, lapsed = {"requests that lapsed", 0};

/* Whether all that changes a text is known. */
static bool is_known(void)
{
    return lines != LINES_ANY_TIME;
}

/* ---- What is shown ---- */

static uint32_t shown_len(uint16_t tag)
{
    uint32_t len = 0;
    sam_status status = sam_client_len(&front->client, tag, &len);
    WANT(status == SAM_OK || (status == SAM_NONE && len == 0), 1);
    return len;
}

static bool is_open(uint16_t tag)
{
    sam_file file;
    WANT(sam_client_file(&front->client, tag, &file), SAM_OK);
    return file.is_open;
}

/* The copy of a file is what is shown. */
static void same_as_shown(uint16_t tag)
{
    if (tag < MOST_FILES)
        same_as_client(&front->client, tag, &front->copies[tag].shown);
}

static void take_splice(const sam_splice *splice)
{
    WANT(splice->tag < MOST_FILES, 1);
    splices_taken.count++;
    if (planted != SPLICE_LEFT_OUT || splice->kind != SAM_SPLICE_WENT)
        take_into(&front->copies[splice->tag].shown, &front->client, splice);
}

/* ---- What is told ---- */

/* The numbers up to this one that nobody was handed out are those of loads that the client makes by itself. */
static void note_own_loads(uint64_t number)
{
    for (; front->request < number; own_loads.count++) {
        front->request++;
        front->requests[front->request % MOST_REQUESTS].kind = 0;
        front->requests[front->request % MOST_REQUESTS].len = 0;
        front->requests[front->request % MOST_REQUESTS].is_run = false;
    }
}

/* The number of a request is told once, behind that of the request before. Refusals of the client's own loads are not told. */
static void hear_request(sam_client_event told, const sam_did *did)
{
    if (planted == REQUEST_UNTOLD && one_in(50))
        return;
    WANT(did->request > front->told, 1);
    if (!has_windows)
        WANT(did->request <= front->request, 1);
    note_own_loads(did->request);
    for (front->told++; front->told < did->request; front->told++)
        WANT(front->requests[front->told % MOST_REQUESTS].kind, 0);
    acted[front->requests[did->request % MOST_REQUESTS].kind] += told == SAM_CLIENT_STEPPED;
    if (told != SAM_CLIENT_STEPPED && front->requests[did->request % MOST_REQUESTS].is_run)
        front->requests[did->request % MOST_REQUESTS].is_run = false;
}

/* A task ends once: by its answer, by the refusal of its write, or because the session is over. */
static void end_task(sam_client_event told, uint32_t number)
{
    WANT(number <= front->task && front->tasks[number].kind != 0, 1);
    WANT(told == SAM_CLIENT_ANSWERED || told == SAM_CLIENT_REFUSED || (told == SAM_CLIENT_UNANSWERED && front->is_over), 1);
    if (told == SAM_CLIENT_REFUSED)
        WANT(front->tasks[number].kind, SAM_NOTE_WRITE);
    front->tasks[number].kind = 0;
    answered.count += told == SAM_CLIENT_ANSWERED;
    unanswered.count += told == SAM_CLIENT_UNANSWERED;
    refused_tasks.count += told == SAM_CLIENT_REFUSED;
}

/* The message is one of those that answer the task. */
static void is_answer(const uint8_t *note, size_t len, uint32_t number)
{
    static const uint8_t kinds[][2] = {[SAM_NOTE_OPEN] = {SAM_NOTE_OPENED, SAM_NOTE_REFUSED},
                                       [SAM_NOTE_COMPLETE] = {SAM_NOTE_NAMES, SAM_NOTE_REFUSED},
                                       [SAM_NOTE_RELOAD] = {SAM_NOTE_ANEW, SAM_NOTE_REFUSED},
                                       [SAM_NOTE_WRITE] = {SAM_NOTE_SAVED, SAM_NOTE_NOT_SAVED}};
    const uint8_t *of_task = kinds[front->tasks[number].kind];
    WANT(len > 5 && (note[0] == of_task[0] || note[0] == of_task[1]), 1);
    WANT((uint32_t)note[1] << 24 | (uint32_t)note[2] << 16 | (uint32_t)note[3] << 8 | note[4], number);
}

static void hear_note(uint32_t task)
{
    uint8_t note[SAM_LINK_MOST_NOTE];
    size_t len = 0;
    WANT(sam_client_note(&front->client, note, sizeof note, &len), SAM_OK);
    WANT(front->heard_count < MOST_NOTES, 1);
    notes_heard.count++;
    front->heard[front->heard_count++] = sum_of(note, len);
    if (task != 0)
        is_answer(note, len, task);
}

/* A command line has run, and what it printed is loaded; or it was refused, or lapsed. That is told once. */
static void end_line(sam_client_event told, const sam_did *did)
{
    static uint32_t runes[MOST_PRINTED];
    uint32_t count = 0;
    WANT(front->requests[did->request % MOST_REQUESTS].is_run, true);
    if (planted != LINE_UNTOLD || !one_in(2))
        front->requests[did->request % MOST_REQUESTS].is_run = false;
    if (told != SAM_CLIENT_RAN)
        return;
    WANT(did->came <= MOST_PRINTED && did->request <= front->told, 1);
    WANT(sam_client_read(&front->client, COMMAND_FILE, did->start, runes, did->came, &count), SAM_OK);
    WANT(count == did->came || acted[SAM_EVENT_CUT_CMD] + acted[SAM_EVENT_PASTE_CMD] > 0, 1);
    for (uint32_t i = 0; i < count; i++)
        WANT(runes[i] != SAM_GAP, 1);
    lines_told.count++;
}

/* Whether this is told of a request that was told before, as that its line has run. */
static bool is_of_line(sam_client_event told, const sam_did *did)
{
    return told == SAM_CLIENT_RAN || (told == SAM_CLIENT_LAPSED && did->request <= front->told);
}

static void hear(sam_client_event told, const sam_did *did)
{
    WANT(told != SAM_CLIENT_LAPSED || front->is_over, 1);
    lapsed.count += told == SAM_CLIENT_LAPSED;
    if (is_of_line(told, did)) {
        end_line(told, did);
        return;
    }
    if (told == SAM_CLIENT_NOTE || told == SAM_CLIENT_ANSWERED)
        hear_note(did->task);
    WANT(did->task != 0 || (told != SAM_CLIENT_ANSWERED && told != SAM_CLIENT_UNANSWERED), 1);
    if (did->task != 0 && (planted != TASK_UNTOLD || !one_in(20)))
        end_task(told, did->task);
    if (did->request != 0)
        hear_request(told, did);
    else if (told == SAM_CLIENT_STEPPED && did->step == SAM_STEP_ACTED)
        edits_told.count++;
    if (told != SAM_CLIENT_REFUSED)
        return;
    WANT(did->request != 0 && front->refused_count < MOST_REFUSED, 1); /* no edit is refused */
    front->refused[front->refused_count++] = met(did->why);
}

/* One thing is told, with its splices. */
static sam_client_event next_event(void)
{
    sam_client_event told = SAM_CLIENT_WIDTH;
    sam_did did;
    sam_splice splice;
    sam_status status;
    while ((status = sam_client_next_event(&front->client, front->now, &told, &did)) == SAM_UNFINISHED) {
        met(status);
        if (one_in(3))
            return SAM_CLIENT_IDLE; /* the program goes on later */
    }
    WANT(status, SAM_OK);
    while (sam_client_next_splice(&front->client, &splice) == SAM_OK)
        take_splice(&splice);
    if (told == SAM_CLIENT_STEPPED)
        same_as_shown(did.tag);
    hear(told, &did);
    return told;
}

/* Many steps in one call, with the runes of their splices. */
static sam_client_event next_edits(void)
{
    static sam_splice splices[MOST_SPLICES];
    static uint32_t runes[MOST_SPLICED];
    sam_changes changes = {
        .splices = splices, .most = 1 + pick(MOST_SPLICES), .runes = runes, .room = SAM_MOST_IN_TYPE + pick(MOST_SPLICED / 2)};
    sam_client_event told = SAM_CLIENT_IDLE;
    sam_did did = {.request = 0};
    sam_splice splice;
    size_t used = 0;
    sam_status status = met(sam_client_step_edits(&front->client, front->now, &changes, &told, &did));
    WANT(status == SAM_OK || status == SAM_UNFINISHED, 1);
    for (size_t i = 0; i < changes.got; i++) {
        WANT(splices[i].tag < MOST_FILES, 1);
        change_by(&front->copies[splices[i].tag].shown, &splices[i], runes + used);
        used += splices[i].kind == SAM_SPLICE_CAME || splices[i].kind == SAM_SPLICE_FILLED ? splices[i].count : 0;
    }
    WANT(used, changes.used);
    splices_together.count += changes.got;
    while (sam_client_next_splice(&front->client, &splice) == SAM_OK)
        take_splice(&splice);
    for (uint16_t tag = 0; tag < front->tags && changes.got > 0; tag++)
        same_as_shown(tag);
    if (status == SAM_OK)
        hear(told, &did);
    return told;
}

/* Goes on until there is nothing to tell. Where memory is short, the program may go on later. */
static void go_on(void)
{
    bool is_together = one_in(4);
    while ((is_together ? next_edits() : next_event()) != SAM_CLIENT_IDLE)
        ;
}

/* Each command line was told. */
static void no_line_is_open(void)
{
    for (size_t at = 0; at < MOST_REQUESTS; at++)
        WANT(front->requests[at].is_run, false);
}

/* ---- Requests ---- */

/* The request that was taken last is this one. */
static void note_request(const sam_event *event, size_t len)
{
    uint64_t at = front->request % MOST_REQUESTS;
    front->requests[at].kind = event->kind;
    front->requests[at].tag = event->tag;
    front->requests[at].len = len;
    front->requests[at].is_run = false;
}

/* Asks for something. Returns whether it is a request of its own: a write may be one that waits. */
static bool ask(const sam_event *event, const uint8_t *text, size_t len)
{
    uint64_t number = 0;
    sam_status status;
    while ((status = met(sam_client_ask(&front->client, event, text, len, &number))) != SAM_OK) {
        WANT(status == SAM_NO_MEMORY || status == SAM_WAITING, 1);
        if (status == SAM_WAITING) /* memory was out behind an edit that was put */
            go_on();
    }
    asked[event->kind]++;
    if (is_known())
        ask_local(event, text, len);
    if (has_windows && number > front->request)
        note_own_loads(number - 1);
    if (number <= front->request) {
        WANT(event->kind == SAM_EVENT_WRITE && number > front->told && front->requests[number % MOST_REQUESTS].kind == SAM_EVENT_WRITE, 1);
        shared_writes.count++;
        return false;
    }
    WANT(number, front->request + 1);
    front->request = number;
    note_request(event, len);
    return true;
}

static bool ask_for(sam_event_kind kind, uint16_t tag, uint32_t start, uint32_t number)
{
    const sam_event event = {.kind = kind, .start = start, .number = number, .tag = tag, .version = 2};
    return ask(&event, NULL, 0);
}

static void ask_text(sam_event_kind kind, const char *text)
{
    const sam_event event = {.kind = kind};
    ask(&event, (const uint8_t *)text, strlen(text));
}

/* The array is what was written last: edits that wait may have come to nothing, and then the file was never changed at the host. */
static bool is_as_saved(uint16_t tag)
{
    return sum_of_text(&front->copies[tag].whole) == front->copies[tag].saved;
}

/* The array is what a file has at the host, or what is to be written. */
static void note_saved(uint16_t tag)
{
    front->copies[tag].saved = sum_of_text(&front->copies[tag].whole);
}

/* An effect that is to come of a request. */
static void want_effect(sam_effect_kind kind, uint16_t tag)
{
    WANT(front->wanted_count < MOST_EFFECTS, 1);
    front->wanted[front->wanted_count] = (struct effect){.kind = kind, .tag = tag, .sum = sum_of_text(&front->copies[tag].whole)};
    front->wanted_by[front->wanted_count++] = front->request;
}

/* A file that is open, and is not asked to be closed; 0 if the one that is drawn is not, or is that of the lines. Where all is known it has
 * its text. */
static uint16_t pick_file(void)
{
    uint16_t tag = (uint16_t)(FIRST + pick(front->tags - FIRST));
    struct copy *copy = &front->copies[tag];
    sam_file file;
    WANT(sam_client_file(&front->client, tag, &file), SAM_OK);
    copy->has_text |= file.is_open && !file.is_locked;
    bool has_text = copy->has_text || !is_known();
    return tag != LINES_FILE && copy->is_wanted && file.is_open && has_text ? tag : 0;
}

/* ---- Edits ---- */

/* Some runes: of those that are typed once, or of others. Returns how many. */
static uint32_t pick_runes(uint32_t *runes)
{
    static const uint32_t counts[] = {0, 1, 1, 2, 3}, others[] = {'\n', 'a', 0xE9, 0x65E5};
    uint32_t count = one_in(20) ? LONG_EDIT : PICK_OF(counts);
    for (uint32_t i = 0; i < count; i++)
        if (is_known() && one_in(3))
            runes[i] = PICK_OF(others);
        else
            runes[i] = TYPED + typed_count++;
    WANT(typed_count < MOST_TYPED, 1);
    return count;
}

/* These runes are in the file, or in none. */
static void note_typed(const uint32_t *runes, uint32_t count, uint16_t tag)
{
    for (uint32_t i = 0; i < count; i++)
        if (runes[i] - TYPED < MOST_TYPED)
            typed_in[runes[i] - TYPED] = tag;
}

/* The text has each rune that was typed into the file and not taken out, once, and no other that was typed. */
static void same_typed(const struct text *text, uint16_t tag)
{
    uint32_t left = 0;
    for (uint32_t i = 0; i < typed_count; i++)
        left += typed_in[i] == tag;
    for (uint32_t i = 0; i < text->len; i++) {
        uint32_t number = text->runes[i] - TYPED;
        if (number >= MOST_TYPED)
            continue;
        WANT(typed_in[number] == tag && left > 0, 1);
        typed_in[number] = 0, left--; /* so that it is found once */
    }
    WANT(left, 0);
    note_typed(text->runes, text->len, tag);
}

static bool has_gap(const uint32_t *runes, uint32_t count)
{
    for (uint32_t i = 0; i < count; i++)
        if (runes[i] == SAM_GAP)
            return true;
    return false;
}

/* Replaces shown runes of a file. Returns false, and nothing is changed, if there was no memory even when it was tried again. */
static bool is_replaced(uint16_t tag, uint32_t start, uint32_t end, const uint8_t *bytes, size_t len)
{
    sam_status status = SAM_NO_MEMORY;
    for (int tries = 0; tries < MOST_TRIES && status == SAM_NO_MEMORY; tries++)
        status = met(sam_client_replace(&front->client, tag, start, end, bytes, len));
    if (status == SAM_OK)
        return true;
    WANT(status, SAM_NO_MEMORY); /* an edit was put before, and waits for memory */
    same_as_shown(tag);
    untold_edits.count++;
    return false;
}

/* The user's runes have taken the place of others, which are shown no more. */
static void note_edit(uint16_t tag, uint32_t start, uint32_t gone, const uint32_t *runes, uint32_t came)
{
    static uint8_t bytes[MOST_RUNE_BYTES * LONG_EDIT];
    struct copy *copy = &front->copies[tag];
    note_typed(copy->shown.runes + start, gone, 0);
    note_typed(runes, came, tag);
    change(&copy->shown, start, gone, runes, came);
    copy->has_dot = false;
    if (!is_known())
        return;
    replace_local(tag, start, start + gone, bytes, spell(runes, came, bytes));
    if (planted != EDIT_FORGOTTEN || !one_in(30))
        change(&copy->whole, start, gone, runes, came);
}

/* The user replaces some runes of a file. Where others change it, too, he takes out none that he doesn't see. */
static void edit_file(uint16_t tag)
{
    static uint32_t runes[LONG_EDIT];
    static uint8_t bytes[MOST_RUNE_BYTES * LONG_EDIT];
    static const uint32_t counts[] = {0, 0, 0, 1, 5};
    const struct text *shown = &front->copies[tag].shown;
    uint32_t start = pick(shown->len + 1), gone = PICK_OF(counts);
    if (gone > shown->len - start || (!is_known() && has_gap(shown->runes + start, gone)))
        gone = 0;
    uint32_t came = shown->len > MOST_KEPT / 2 ? 0 : pick_runes(runes);
    if (!is_replaced(tag, start, start + gone, bytes, spell(runes, came, bytes)))
        return;
    note_edit(tag, start, gone, runes, came);
    same_as_shown(tag);
}

/* The user replaces runes at some places, by one call: each place is one of the text that the replacements before have left. */
static void edit_places(uint16_t tag)
{
    sam_replacement rows[MOST_TOGETHER];
    uint32_t runes[MOST_TOGETHER], len = front->copies[tag].shown.len;
    uint8_t bytes[MOST_RUNE_BYTES * MOST_TOGETHER];
    size_t count = 2 + pick(MOST_TOGETHER - 1), made = 0;
    for (size_t i = 0; i < count; i++) {
        uint32_t start = pick(len + 1), gone = is_known() && start < len && one_in(3);
        rows[i] = (sam_replacement){.start = start, .end = start + gone, .count = 1};
        runes[i] = TYPED + typed_count++;
        len += 1 - gone;
    }
    sam_status status = sam_client_replace_each(&front->client, tag, rows, count, bytes, spell(runes, (uint32_t)count, bytes), &made);
    WANT(met(status) == SAM_NO_MEMORY || (status == SAM_OK && made == count), 1);
    for (size_t i = 0; i < made; i++)
        note_edit(tag, rows[i].start, rows[i].end - rows[i].start, &runes[i], 1);
    same_as_shown(tag);
    edits_together.count += made;
}

/* ---- Beginning ---- */

static void begin_copy(uint16_t tag)
{
    struct copy *copy = &front->copies[tag];
    copy->shown.len = copy->whole.len = 0;
    copy->is_wanted = copy->has_text = copy->is_seen = copy->has_dot = false;
    note_saved(tag);
}

/* A client that shows no file yet, and these copies of the files: each has its name at the server. */
static void begin_front(const uint8_t *id, bool takes_over)
{
    struct front *made = front;
    made->now = 1000;
    made->request = made->told = 0;
    made->wanted_count = made->put_count = made->heard_count = made->refused_count = 0;
    made->task = 0;
    made->is_over = false;
    for (uint16_t tag = 0; tag < MOST_FILES; tag++)
        begin_copy(tag);
    DONE(sam_client_new(&made->client, id, takes_over, made->now));
}

/* The user opens a file. */
static void open_file(uint16_t tag)
{
    ask_for(SAM_EVENT_OPEN, tag, 0, 0);
    front->copies[tag].is_wanted = true;
}

static void open_files(void)
{
    ask_for(SAM_EVENT_OFFER_VERSION, 0, 0, 0);
    ask_for(SAM_EVENT_OPEN_CMD, 0, 0, 0);
    for (uint16_t tag = FIRST; tag < front->tags; tag++)
        if (tag != LINES_FILE || lines != NO_LINES)
            open_file(tag);
}

#endif
