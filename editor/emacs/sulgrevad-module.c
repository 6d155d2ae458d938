/* A dynamic module for Emacs 28: the library's client (sulgrevad.h), behind Lisp functions whose names begin with sulgrevad-client-.
 *
 * Bytes go to Lisp as unibyte strings. They come as strings of the characters U+0000 to U+00FF, one for each byte, because a module can't
 * read a unibyte string: the process speaks Latin-1. Texts go as what they are. A status that is not SAM_OK is a Lisp error with the
 * status's text, and SAM_NONE of a reader is nil. If memory is out the error is sulgrevad-no-memory: nothing is lost, and the call is to be
 * made again later. What a function returns that has failed Lisp ignores. The time is that of `sulgrevad-line--now'.
 */
#define _DEFAULT_SOURCE /* getentropy */
#include <emacs-module.h>
#include <stdlib.h>
#include <string.h>
#include <unistd.h>

#include "sulgrevad.h"

/* Emacs sees these names alone. Those of other files here would else be Emacs' own, if it has such ones. */
#define SHOWN __attribute__((visibility("default")))

/* Emacs loads no module without this name, which promises a licence that goes with the GPL. This repository has chosen none yet, so who
 * builds the module makes that promise. */
#ifdef GOES_WITH_THE_GPL
SHOWN int plugin_is_GPL_compatible;
#endif

enum {
    MOST_IN_PIPE = 49152, /* bytes that may be on their way to the host: fewer than a pipe takes */
    MOST_SHOWN = 2 * SAM_MOST_RUNES, /* runes of a shown text: those of the file, and as many that wait */
    TEXT_ROOM = 4 * MOST_SHOWN,
    VERSION = 2, /* of the protocol */
};

/* A client, what the program knows of its newest connection, and the call that Lisp makes of it. */
struct session {
    sam_client client;
    uint64_t attempt;
    uint64_t given; /* up to this place of our stream the connection was given bytes, at most: its hello counts, too */
    uint64_t now;
    emacs_value *words; /* those behind the client */
    uint8_t *text;      /* the last of them, where it is a text, in UTF-8, or bytes; and how many bytes these are */
    size_t len;
};

/* ---- Values ---- */

static emacs_value call(emacs_env *env, const char *name, ptrdiff_t count, emacs_value *words)
{
    return env->funcall(env, env->intern(env, name), count, words);
}

#define LIST(env, ...) call(env, "list", sizeof((emacs_value[]){__VA_ARGS__}) / sizeof(emacs_value), (emacs_value[]){__VA_ARGS__})

static emacs_value truth(emacs_env *env, bool value)
{
    return env->intern(env, value ? "t" : "nil");
}

static emacs_value integer(emacs_env *env, uint64_t value)
{
    return env->make_integer(env, (intmax_t)value);
}

static emacs_value text_of(emacs_env *env, const uint8_t *utf8, size_t len)
{
    return env->make_string(env, (const char *)utf8, (ptrdiff_t)len);
}

static emacs_value bytes_of(emacs_env *env, const uint8_t *bytes, size_t len)
{
    return env->make_unibyte_string(env, (const char *)bytes, (ptrdiff_t)len);
}

static emacs_value words_of(emacs_env *env, sam_status status)
{
    const char *words = sam_status_text(status);
    return text_of(env, (const uint8_t *)words, strlen(words));
}

/* What a call gives Lisp that has no result: nil, or an error. */
static emacs_value done(emacs_env *env, sam_status status)
{
    bool is_short = status == SAM_NO_MEMORY || status == SAM_UNFINISHED || status == SAM_WAITING;
    emacs_value error = env->intern(env, is_short ? "sulgrevad-no-memory" : "sulgrevad-error");
    if (status != SAM_OK && status != SAM_NONE)
        env->non_local_exit_signal(env, error, LIST(env, words_of(env, status)));
    return truth(env, false);
}

/* Makes a function of Lisp's of such a call. */
#define CALL(name, ...)                                                                                                                    \
    static emacs_value name(emacs_env *env, struct session *session)                                                                       \
    {                                                                                                                                      \
        return done(env, __VA_ARGS__);                                                                                                     \
    }

/* What one gives Lisp that has a number. */
static emacs_value number(emacs_env *env, sam_status status, uint64_t value)
{
    return status == SAM_OK ? integer(env, value) : done(env, status);
}

/* A number that Lisp gives. One below 0 or above `most` becomes `most`, which the library refuses. */
static uint32_t u32(emacs_env *env, const struct session *session, size_t word, uint32_t most)
{
    intmax_t value = env->extract_integer(env, session->words[word]);
    return value < 0 || value > most ? most : (uint32_t)value;
}

static uint16_t tag_of(emacs_env *env, const struct session *session, size_t word)
{
    return (uint16_t)u32(env, session, word, UINT16_MAX);
}

/* Reads the UTF-8 of a string, to be freed. */
static void read_text(emacs_env *env, struct session *session, emacs_value word)
{
    ptrdiff_t size = 0;
    session->len = 0;
    session->text = env->copy_string_contents(env, word, NULL, &size) ? malloc((size_t)size) : NULL;
    if (session->text != NULL && env->copy_string_contents(env, word, (char *)session->text, &size))
        session->len = (size_t)size - 1;
    else if (size > 0 && session->text == NULL)
        done(env, SAM_NO_MEMORY);
}

/* Makes of a text the bytes for which its characters stand. One from U+0080 on has two bytes in UTF-8. */
static void turn_into_bytes(struct session *session)
{
    uint8_t *text = session->text;
    size_t count = 0;
    for (size_t at = 0; at < session->len; count++) {
        bool is_long = text[at] >= 0x80;
        text[count] = is_long ? (uint8_t)(text[at] << 6 | (text[at + 1] & 0x3F)) : text[at];
        at += is_long ? 2 : 1;
    }
    session->len = count;
}

/* ---- The line ---- */

static sam_line_details details_of(struct session *session)
{
    sam_line_details details = {0};
    if (sam_client_describe(&session->client, session->now, &details) != SAM_OK)
        details.state = SAM_LINE_LOST; /* which can't be: the client is made */
    return details;
}

/* What is to be done by now: `connect', `drop', `ask' or nil. */
static emacs_value tick(emacs_env *env, struct session *session)
{
    static const char *const ticks[] = {"nil", "connect", "drop", "ask"};
    uint32_t found = SAM_TICK_NOTHING;
    sam_status status = sam_client_tick(&session->client, session->now, &found);
    return status == SAM_OK ? env->intern(env, ticks[found]) : done(env, status);
}

/* In how many milliseconds something is to be done, or nil. */
static emacs_value due_in(emacs_env *env, struct session *session)
{
    uint64_t left = 0;
    sam_status status = sam_client_due_in(&session->client, session->now, &left);
    return number(env, status, left);
}

static emacs_value connected(emacs_env *env, struct session *session)
{
    session->given = 0;
    return done(env, sam_client_connected(&session->client, session->now, &session->attempt));
}

CALL(not_connected, sam_client_not_connected(&session->client, session->now))
CALL(broken, sam_client_broken(&session->client, session->attempt, session->now))
/* Whether a command waits for what the host tells: the library knows of tasks and locks alone. */
CALL(expect, sam_client_expect(&session->client, env->is_not_nil(env, session->words[0]), session->now))
CALL(acknowledge, sam_client_acknowledge(&session->client))

/* Bytes that came on the newest connection. nil if they are taken, else the number of why the connection, or the line, is over. */
static emacs_value receive(emacs_env *env, struct session *session)
{
    sam_status status = sam_client_receive(&session->client, session->attempt, session->text, session->len, session->now);
    return status == SAM_OK || status == SAM_NO_MEMORY ? done(env, status) : integer(env, status);
}

/* The next bytes for the newest connection. There are none if its pipe may take no more. */
static emacs_value take_out(emacs_env *env, struct session *session)
{
    static uint8_t bytes[MOST_IN_PIPE];
    uint64_t acknowledged = details_of(session).acknowledged;
    size_t len = 0;
    if (session->given < acknowledged)
        session->given = acknowledged; /* it goes on there, as the host's welcome says */
    if (session->given - acknowledged < MOST_IN_PIPE) {
        size_t room = (size_t)(acknowledged + MOST_IN_PIPE - session->given);
        sam_status status = sam_client_take_out(&session->client, session->attempt, bytes, room, &len);
        if (status != SAM_OK)
            return done(env, status);
        session->given += len;
    }
    return bytes_of(env, bytes, len);
}

/* ---- What is told ---- */

/* What kinds of messages are called in Lisp. The others have nothing but words for people there. */
static const char *const kinds[SAM_NOTE_NO_JOURNAL + 1] = {
    [SAM_NOTE_OPEN] = "open",           [SAM_NOTE_ANEW] = "anew",
    [SAM_NOTE_LOST] = "lost",           [SAM_NOTE_RELOAD] = "reload",
    [SAM_NOTE_SHOWN] = "shown",         [SAM_NOTE_ENDED] = "ended",
    [SAM_NOTE_NAMES] = "names",         [SAM_NOTE_SAVED] = "saved",
    [SAM_NOTE_OPENED] = "opened",       [SAM_NOTE_SESSION] = "session",
    [SAM_NOTE_REFUSED] = "refused",     [SAM_NOTE_COMPLETE] = "complete",
    [SAM_NOTE_NOT_SAVED] = "not-saved", [SAM_NOTE_TAKEN_OVER] = "taken-over",
};

/* The message that was told last: how it was told, its kind, and its fields but the copy's path; the path as bytes. The kind is nil if it
 * can't be read, since it is of a later version. */
static emacs_value note_of(emacs_env *env, sam_client *client, const char *told)
{
    uint8_t bytes[SAM_LINK_MOST_NOTE];
    size_t len = 0;
    struct sam_note note = {0};
    sam_status status = sam_client_note(client, bytes, sizeof bytes, &len);
    if (status == SAM_OK)
        status = sam_note_read(bytes, len, &note);
    const char *kind = status != SAM_OK ? "nil" : kinds[note.kind] != NULL ? kinds[note.kind] : "said";
    return LIST(env, env->intern(env, told), env->intern(env, kind), integer(env, note.request), integer(env, note.tag),
                integer(env, note.code), integer(env, note.number), bytes_of(env, bytes + note.path_at, note.path_len),
                text_of(env, bytes + note.text_at, note.text_len));
}

/* The changes of the shown texts by the last step: `stepped', and of each its kind, its file, its place, and how many runes. */
static emacs_value step_of(emacs_env *env, sam_client *client)
{
    static const char *const names[] = {"", "came", "went", "filled", "emptied"};
    emacs_value all = LIST(env, env->intern(env, "stepped"));
    sam_splice splice;
    while (sam_client_next_splice(client, &splice) == SAM_OK) {
        emacs_value kind = env->intern(env, names[splice.kind]);
        emacs_value one = LIST(env, kind, integer(env, splice.tag), integer(env, splice.place), integer(env, splice.count));
        all = call(env, "cons", 2, (emacs_value[]){one, all});
    }
    return call(env, "nreverse", 1, &all);
}

/* Goes on until something is told, as the functions above have it; or that a request was refused: `refused', why, and its number; or that a
 * command line has run: `ran', its number, and where in the command file stands what it printed, and how long. nil if nothing is. */
static emacs_value next_event(emacs_env *env, struct session *session)
{
    sam_client_event told = SAM_CLIENT_BUSY;
    sam_did did;
    sam_status status = SAM_OK;
    /* The end is told by itself. */
    while (status == SAM_OK && (told == SAM_CLIENT_BUSY || told == SAM_CLIENT_UNANSWERED || told == SAM_CLIENT_LAPSED))
        status = sam_client_next_event(&session->client, session->now, &told, &did);
    if (status != SAM_OK)
        return done(env, status);
    return told == SAM_CLIENT_STEPPED    ? step_of(env, &session->client)
           : told == SAM_CLIENT_NOTE     ? note_of(env, &session->client, "note")
           : told == SAM_CLIENT_ANSWERED ? note_of(env, &session->client, "answered")
           : told == SAM_CLIENT_REFUSED  ? LIST(env, env->intern(env, "refused"), words_of(env, did.why), integer(env, did.request))
           : told == SAM_CLIENT_RAN
               ? LIST(env, env->intern(env, "ran"), integer(env, did.request), integer(env, did.start), integer(env, did.came))
               : truth(env, false);
}

/* ---- What the user does ---- */

/* Has samhost open a path, which is a string of bytes, or complete it, or read a file anew. The number of the task. */
static emacs_value begin(emacs_env *env, struct session *session)
{
    uint32_t kind = SAM_NOTE_OPEN, task = 0;
    while (kind < SAM_NOTE_RELOAD && !env->eq(env, session->words[0], env->intern(env, kinds[kind])))
        kind++;
    uint16_t tag = tag_of(env, session, 1);
    sam_status status = sam_client_begin(&session->client, kind, tag, session->text, session->len, session->now, &task);
    return number(env, status, task);
}

/* Tells samhost that a file has by now what another one has, which was read anew. */
static emacs_value reloaded(emacs_env *env, struct session *session)
{
    sam_note note = {.kind = SAM_NOTE_RELOADED, .tag = tag_of(env, session, 0), .number = tag_of(env, session, 1)};
    uint8_t bytes[SAM_LINK_MOST_NOTE];
    size_t len = 0;
    sam_status status = sam_note_write(&note, bytes, bytes, bytes, bytes, sizeof bytes, &len);
    if (status == SAM_OK)
        status = sam_client_put_note(&session->client, bytes, len, session->now);
    return done(env, status);
}

/* All of a file is shown: it is loaded. */
CALL(see, sam_client_see(&session->client, tag_of(env, session, 0), 0, MOST_SHOWN))

/* Why something can't be, which may be told the user, or nil. */
static emacs_value refusal(emacs_env *env, sam_status status)
{
    bool is_told = status == SAM_NOT_TEXT || status == SAM_TOO_MANY || (status > SAM_REFUSAL && status < SAM_SCRIPT);
    return is_told ? words_of(env, status) : done(env, status);
}

/* A text takes the place of the shown runes of a file from a place to a place. Why it can't, or nil. */
static emacs_value replace(emacs_env *env, struct session *session)
{
    uint32_t start = u32(env, session, 1, UINT32_MAX), end = u32(env, session, 2, UINT32_MAX);
    return refusal(env, sam_client_replace(&session->client, tag_of(env, session, 0), start, end, session->text, session->len));
}

/* Asks for an event of a kind, with a file and two places, which are not read if the kind has none. */
static emacs_value ask(emacs_env *env, struct session *session)
{
    static const char *const names[] = {
        [SAM_EVENT_SELECT] = "select", [SAM_EVENT_OPEN] = "open", [SAM_EVENT_WRITE] = "write",
        [SAM_EVENT_CLOSE] = "close",   [SAM_EVENT_EXIT] = "exit", [SAM_EVENT_OFFER_VERSION] = "offer-version"};
    sam_event event = {.tag = tag_of(env, session, 1), .version = VERSION};
    event.start = u32(env, session, 2, UINT32_MAX);
    event.number = u32(env, session, 3, UINT32_MAX);
    for (size_t i = 0; i < sizeof names / sizeof names[0]; i++)
        if (names[i] != NULL && env->eq(env, session->words[0], env->intern(env, names[i])))
            event.kind = (sam_event_kind)i;
    uint64_t request;
    return done(env, sam_client_ask(&session->client, &event, (const uint8_t *)"", 0, &request));
}

/* Has the host run a command line on a file. The number of its request, or words why it can't. */
static emacs_value run(emacs_env *env, struct session *session)
{
    uint64_t request = 0;
    sam_status status = sam_client_run(&session->client, tag_of(env, session, 0), session->text, session->len, &request);
    return status == SAM_OK ? integer(env, request) : refusal(env, status);
}

/* ---- Readers ---- */

/* How the session is, as a list: the line's state; for how many milliseconds it is silent; whether a host was met; whether there is no
 * connection though there was one, and whether there is none, or an answer is overdue; whether the host has all;
 * how many requests wait, and whether one, or an edit, is to act next; whether the command line is locked; whether the session has ended;
 * how many tags there are. */
static emacs_value describe(emacs_env *env, struct session *session)
{
    static const char *const states[] = {"down", "connecting", "open", "late", "lost"};
    sam_line_details line = details_of(session);
    sam_state state;
    bool has_all = false;
    size_t requests = 0;
    sam_status status = sam_client_state(&session->client, &state);
    if (status == SAM_OK)
        status = sam_client_has_all(&session->client, &has_all);
    if (status == SAM_OK)
        status = sam_client_requests(&session->client, &requests);
    if (status != SAM_OK)
        return done(env, status);
    return LIST(env, env->intern(env, states[line.state]), integer(env, line.silence), truth(env, line.is_known),
                truth(env, line.is_broken), truth(env, line.is_broken || line.silence >= line.overdue_after), truth(env, has_all),
                integer(env, requests + state.held), truth(env, state.held > 0), truth(env, state.command_locked), truth(env, state.exited),
                integer(env, state.tags));
}

/* How a file is: whether it is known, open, locked, unsaved, and has edits that wait; how many runes are shown; where its dot is. */
static emacs_value file(emacs_env *env, struct session *session)
{
    uint16_t tag = tag_of(env, session, 0), edited = 0;
    sam_file file;
    bool is_unsaved = false;
    uint32_t len = 0;
    sam_status status = sam_client_file(&session->client, tag, &file);
    if (status == SAM_OK)
        status = sam_client_is_unsaved(&session->client, tag, &is_unsaved);
    if (status == SAM_OK && file.is_open)
        status = sam_client_len(&session->client, tag, &len);
    if (status != SAM_OK)
        return done(env, status);
    bool has_edits = sam_client_next_waiting(&session->client, tag, &edited) == SAM_OK && edited == tag;
    return LIST(env, truth(env, file.is_known), truth(env, file.is_open), truth(env, file.is_locked), truth(env, is_unsaved),
                truth(env, has_edits), integer(env, len), integer(env, file.dot_start), integer(env, file.dot_end));
}

static emacs_value name(emacs_env *env, struct session *session)
{
    uint8_t bytes[SAM_MOST_NAME_BYTES];
    size_t len;
    sam_status status = sam_client_name(&session->client, tag_of(env, session, 0), bytes, sizeof bytes, &len);
    return status == SAM_OK ? text_of(env, bytes, len) : done(env, status);
}

static emacs_value first_gap(emacs_env *env, struct session *session)
{
    uint32_t gap = 0;
    sam_status status = sam_client_first_gap(&session->client, tag_of(env, session, 0), 0, &gap);
    return number(env, status, gap);
}

static uint8_t text_room[TEXT_ROOM]; /* of a text that goes to Lisp */

static size_t put_rune(uint32_t rune, uint8_t *into)
{
    static const uint8_t heads[] = {0, 0, 0xC0, 0xE0, 0xF0};
    size_t len = rune < 0x80 ? 1 : rune < 0x800 ? 2 : rune < 0x10000 ? 3 : 4;
    for (size_t i = len - 1; i > 0; i--, rune >>= 6)
        into[i] = (uint8_t)(0x80 | (rune & 0x3F));
    into[0] = (uint8_t)(heads[len] | rune);
    return len;
}

/* So many shown runes of a file from a place on, as a list of texts and of numbers, which count gaps. */
static emacs_value pieces(emacs_env *env, struct session *session)
{
    static uint32_t runes[MOST_SHOWN];
    uint32_t found = 0, place = u32(env, session, 1, UINT32_MAX), count = u32(env, session, 2, MOST_SHOWN);
    sam_status status = sam_client_read(&session->client, tag_of(env, session, 0), place, runes, count, &found);
    if (status != SAM_OK)
        return done(env, status);
    emacs_value all = truth(env, false);
    for (uint32_t at = 0; at < found;) {
        uint32_t from = at;
        size_t len = 0;
        bool is_gap = runes[at] == SAM_GAP;
        for (; at < found && (runes[at] == SAM_GAP) == is_gap; at++)
            len += is_gap ? 0 : put_rune(runes[at], text_room + len);
        emacs_value one = is_gap ? integer(env, at - from) : text_of(env, text_room, len);
        all = call(env, "cons", 2, (emacs_value[]){one, all});
    }
    return call(env, "nreverse", 1, &all);
}

/* Takes back the next text for which the host left no room: its file, its place, how many runes went of the shown text, and itself. nil if
 * there is none. */
static emacs_value drop_next(emacs_env *env, struct session *session)
{
    sam_splice splice;
    size_t len = 0;
    uint16_t tag = 0;
    sam_status status = SAM_NONE;
    for (bool is_more = true; is_more && status == SAM_NONE; is_more = tag++ < UINT16_MAX) {
        if (sam_client_next_waiting(&session->client, tag, &tag) != SAM_OK)
            return truth(env, false);
        status = sam_client_drop_next(&session->client, tag, &splice, text_room, sizeof text_room, &len);
    }
    if (status != SAM_OK)
        return done(env, status);
    return LIST(env, integer(env, splice.tag), integer(env, splice.place), integer(env, splice.count), text_of(env, text_room, len));
}

/* ---- The module ---- */

enum last_word { VALUE, TEXT, BYTES };

struct function {
    const char *name;
    emacs_value (*of)(emacs_env *env, struct session *session);
    ptrdiff_t count; /* of words behind the client */
    enum last_word last;
};

static const struct function functions[] = {
    {"ask", ask, 4, VALUE},
    {"run", run, 2, TEXT},
    {"see", see, 1, VALUE},
    {"tick", tick, 0, VALUE},
    {"file", file, 1, VALUE},
    {"name", name, 1, VALUE},
    {"begin", begin, 3, BYTES},
    {"broken", broken, 0, VALUE},
    {"due-in", due_in, 0, VALUE},
    {"expect", expect, 1, VALUE},
    {"pieces", pieces, 3, VALUE},
    {"receive", receive, 1, BYTES},
    {"replace", replace, 4, TEXT},
    {"describe", describe, 0, VALUE},
    {"reloaded", reloaded, 2, VALUE},
    {"take-out", take_out, 0, VALUE},
    {"connected", connected, 0, VALUE},
    {"drop-next", drop_next, 0, VALUE},
    {"first-gap", first_gap, 1, VALUE},
    {"next-event", next_event, 0, VALUE},
    {"acknowledge", acknowledge, 0, VALUE},
    {"not-connected", not_connected, 0, VALUE},
};

static uint64_t time_of(emacs_env *env)
{
    return (uint64_t)env->extract_integer(env, call(env, "sulgrevad-line--now", 0, NULL));
}

static bool is_well(emacs_env *env)
{
    return env->non_local_exit_check(env) == emacs_funcall_exit_return;
}

/* Calls a function, but not where Lisp has given what it doesn't take, or a quit comes. */
static emacs_value invoke(emacs_env *env, ptrdiff_t count, emacs_value *words, void *data)
{
    const struct function *function = data;
    struct session *session = env->get_user_ptr(env, words[0]);
    uint64_t now = time_of(env);
    if (!is_well(env))
        return words[0];
    session->now = now;
    session->words = words + 1;
    session->text = NULL;
    if (function->last != VALUE)
        read_text(env, session, words[count - 1]);
    if (function->last == BYTES)
        turn_into_bytes(session);
    emacs_value answer = is_well(env) ? function->of(env, session) : words[0];
    free(session->text);
    return answer;
}

static void finalize(void *pointer)
{
    sam_client_free(&((struct session *)pointer)->client);
    free(pointer);
}

/* Makes a client with a random id, to take a session over if the word is not nil. In a pair with the id. */
static emacs_value make(emacs_env *env, ptrdiff_t count, emacs_value *words, void *data)
{
    (void)count, (void)data;
    uint8_t id[SAM_LINK_ID_BYTES];
    struct session *session = calloc(1, sizeof *session);
    if (session == NULL || getentropy(id, sizeof id) != 0 ||
        sam_client_new(&session->client, id, env->is_not_nil(env, words[0]), time_of(env)) != SAM_OK) {
        free(session);
        return done(env, SAM_NO_MEMORY);
    }
    return call(env, "cons", 2, (emacs_value[]){env->make_user_ptr(env, finalize, session), bytes_of(env, id, sizeof id)});
}

static void define(emacs_env *env, const char *name, emacs_value function)
{
    char whole[64] = "sulgrevad-client-";
    strncat(whole, name, sizeof whole - strlen(whole) - 1);
    call(env, "defalias", 2, (emacs_value[]){env->intern(env, whole), function});
}

SHOWN int emacs_module_init(struct emacs_runtime *runtime)
{
    emacs_env *env = runtime->get_environment(runtime);
    if ((size_t)runtime->size < sizeof *runtime || (size_t)env->size < sizeof *env)
        return 1;
    define(env, "make", env->make_function(env, 1, 1, make, NULL, NULL));
    for (size_t i = 0; i < sizeof functions / sizeof functions[0]; i++) {
        ptrdiff_t count = functions[i].count + 1;
        define(env, functions[i].name, env->make_function(env, count, count, invoke, NULL, (void *)(uintptr_t)&functions[i]));
    }
    emacs_value feature = env->intern(env, "sulgrevad-module");
    call(env, "provide", 1, &feature);
    return 0;
}
