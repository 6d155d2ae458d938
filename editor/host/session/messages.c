/* messages.c: what a session says to its terminal, as typed messages of its link. Who has no terminal says it on standard error.
 *
 * Each write of a file gets one answer. A request for that takes the memory of its answer beforehand.
 */
#define _XOPEN_SOURCE 700
#include <stdarg.h>
#include <stdlib.h>
#include <string.h>

#include "session/messages.h"
#include "log.h"
#include "session/session.h"

static struct session *listener; /* whose messages tell what happened; NULL: that goes to standard error */

static const char *words_or_none(const char *words)
{
    return words == NULL ? "" : words;
}

/* ---- Bytes ---- */

/* The length of words, cut to whole runes where there is less room. */
static size_t cut_len(const char *words, size_t room)
{
    size_t len = strlen(words);

    if (len > room) {
        len = room;
        while (len > 0 && ((unsigned char)words[len] & 0xC0) == 0x80)
            len--;
    }
    return len;
}

/* The bytes of a message; how many, or 0 where it has a field that its kind has not. Where not all fits in, the words are cut; a path,
 * which is no use if it is cut, goes before that, since the tag tells of which file it is, and then a copy. */
static size_t spell(const struct event *event, const char *words, uint8_t into[SAM_LINK_MOST_NOTE])
{
    const char *path = words_or_none(event->path), *copy = words_or_none(event->copy);
    struct sam_note note = {
        .kind = (uint8_t)event->kind,
        .code = (uint8_t)event->code,
        .tag = event->tag,
        .request = event->request,
        .number = event->number,
        .path_len = strlen(path),
        .copy_len = strlen(copy),
    };
    const uint8_t *bytes[] = {(const uint8_t *)path, (const uint8_t *)copy, (const uint8_t *)words};
    size_t len = 0;

    while (sam_note_write(&note, bytes[0], bytes[1], bytes[2], into, SAM_LINK_MOST_NOTE, &len) != SAM_OK) {
        if (note.path_len == 0 && note.copy_len == 0)
            return 0;
        *(note.path_len > 0 ? &note.path_len : &note.copy_len) = 0;
    }
    note.text_len = cut_len(words, SAM_LINK_MOST_NOTE - len);
    if (note.text_len > 0 && sam_note_write(&note, bytes[0], bytes[1], bytes[2], into, SAM_LINK_MOST_NOTE, &len) != SAM_OK)
        return 0;
    return len;
}

/* ---- Those that wait ---- */

static void append(struct message **list, struct message *message)
{
    while (*list != NULL)
        list = &(*list)->next;
    message->next = NULL;
    *list = message;
}

/* A message of these bytes, in memory of the caller's; NULL where that is out. */
static struct message *message_of(const uint8_t *bytes, size_t len)
{
    struct message *message = malloc(sizeof *message + len);

    if (message != NULL) {
        *message = (struct message){.len = len};
        memcpy(message->bytes, bytes, len);
    }
    return message;
}

bool put_message(struct session *session, const struct event *event, const char *words)
{
    uint8_t bytes[SAM_LINK_MOST_NOTE];
    size_t len = spell(event, words_or_none(words), bytes);
    struct message *message = len == 0 ? NULL : message_of(bytes, len);

    if (message == NULL)
        return false;
    append(&session->messages.waiting, message);
    put_messages(session);
    return true;
}

bool put_first_message(struct session *session, const char *name)
{
    struct messages *messages = &session->messages;
    struct message *others = messages->waiting;
    char machine[MACHINE_ROOM];

    name_machine(machine);
    messages->waiting = NULL;
    bool is_put = put_message(session, &(struct event){.kind = SAM_NOTE_SESSION, .number = MESSAGES_VERSION, .path = name}, machine);
    *(is_put ? &messages->waiting->next : &messages->waiting) = others;
    return is_put;
}

void put_messages(struct session *session)
{
    struct messages *messages = &session->messages;

    if (!session->is_named)
        return;
    while (messages->waiting != NULL) {
        sam_status code = sam_server_say(session->server, messages->waiting->bytes, messages->waiting->len);
        if (code != SAM_OK && code != SAM_UNFINISHED)
            return;
        struct message *first = messages->waiting;
        messages->waiting = first->next;
        free(first);
    }
    say_missing(messages);
}

void free_messages(struct messages *messages)
{
    for (struct message *message = messages->waiting, *next; message != NULL; message = next) {
        next = message->next;
        free(message);
    }
    *messages = (struct messages){0};
}

/* ---- What happened ---- */

/* Whether standard error is to have the words of a message: there is no terminal; or it may be gone and won't come back, or memory is
 * out. */
static bool is_said_aloud(const struct session *session, bool is_put)
{
    bool is_cut_off = session->is_named && (session->line < 0 || session->line_out < 0);
    bool is_stuck = session->is_named && session->messages.waiting != NULL;

    return listener == NULL || (session->has_streams && (is_cut_off || is_stuck || !is_put));
}

static void hear(struct session *session, const struct event *event, const char *words)
{
    bool is_put = put_message(session, event, words), is_aloud = is_said_aloud(session, is_put);

    if (is_aloud)
        say_aloud(words);
    else if (!is_put)
        session->messages.missing++;
}

void listen_for_messages(struct session *session)
{
    listener = session;
}

void tell(const struct event *event, const char *format, ...)
{
    char words[LINE_ROOM];
    va_list list;

    va_start(list, format);
    spell_line(words, format, list);
    va_end(list);
    if (listener != NULL)
        hear(listener, event, words);
    else
        say_aloud(words);
}

void say_gathered(struct session *session)
{
    struct messages *messages = &session->messages;
    struct sam_note note;

    listen_for_messages(NULL);
    for (const struct message *message = messages->waiting; message != NULL; message = message->next) {
        if (sam_note_read(message->bytes, message->len, &note) == SAM_OK && note.kind != SAM_NOTE_SESSION && note.text_len > 0)
            say("%.*s", (int)note.text_len, (const char *)message->bytes + note.text_at);
    }
    say_missing(messages);
}

void say_missing(struct messages *messages)
{
    unsigned missing = messages->missing;

    messages->missing = 0;
    if (missing > 0)
        say("lines missing before this one, since memory was out: %u", missing);
}

/* ---- Answers of writes ---- */

bool expect_write(struct document *document, uint32_t request)
{
    if (document->answer == NULL)
        document->answer = malloc(sizeof *document->answer + SAM_LINK_MOST_NOTE);
    if (document->answer != NULL)
        document->answer->request = request;
    return document->answer != NULL;
}

void answer_write(struct session *session, struct event event, const char *format, ...)
{
    char words[LINE_ROOM];
    struct document *document = &session->documents[event.tag];
    struct message *answer = document->answer;
    va_list list;

    va_start(list, format);
    spell_line(words, format, list);
    va_end(list);
    document->answer = NULL;
    event.request = answer == NULL ? 0 : answer->request;
    if (answer == NULL)
        answer = malloc(sizeof *answer + SAM_LINK_MOST_NOTE);
    if (answer != NULL) {
        answer->len = spell(&event, words, answer->bytes);
        append(&session->messages.waiting, answer);
    } else
        session->messages.missing++;
    put_messages(session);
    if (is_said_aloud(session, answer != NULL))
        say_aloud(words);
}
