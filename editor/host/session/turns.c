/* turns.c: has the server of a session take what has come, and does what it asks for.
 *
 * The server stops where something is to be done: a file to be written, a text that was dropped to be saved, a message of the terminal to
 * be heard. What that makes is one record of the journal: files that join, what is said, what is known of files, and that it is done. So a
 * kill leaves all of it or nothing. Where memory is out nothing is lost, and it is tried again.
 */
#define _XOPEN_SOURCE 700
#include <errno.h>

#include "session/turns.h"
#include "disk/errors.h"
#include "disk/saves.h"
#include "journal/journal_records.h"
#include "net/event_loop.h"
#include "session/file_requests.h"
#include "session/persistent_session.h"
#include "session/session.h"

/* Whether a call of the server has taken what it was given. */
static bool is_taken(sam_status code)
{
    return code == SAM_OK || code == SAM_UNFINISHED;
}

/* ---- What has come ---- */

/* Gives the server what was read. Returns whether it took some. */
static bool feed(struct session *session)
{
    struct piece *in = &session->in;
    size_t count = in->len - in->sent;

    if (count == 0)
        return false;
    sam_status code = sam_server_receive(session->server, count_of(session, sam_server_attempt), in->bytes + in->sent, count);
    if (is_taken(code)) {
        in->sent += count;
        delay_save(&session->due);
        return true;
    }
    if (!sam_is_stop(code) && code != SAM_NO_MEMORY && code != SAM_WAITING)
        break_line(session, code);
    return false;
}

void take_no_more(struct session *session)
{
    struct piece *in = &session->in;

    if (session->ending == FAULT) /* it would stop the server once more */
        in->sent = in->len;
    else if (sam_server_go_on(session->server) == SAM_OK)
        (void)feed(session);
    session->is_short = in->sent < in->len || sam_server_go_on(session->server) == SAM_UNFINISHED;
}

/* ---- What it asks for ---- */

/* Marks the files as dirty whose text is on no disk, though the host takes them for written, so that the terminal hears of it as of any
 * other change. Returns whether there is memory for that. */
static bool put_marks(struct session *session)
{
    bool are_put = true;

    for (size_t tag = 1, tags = count_tags(session); tag < tags; tag++) {
        struct document *document = &session->documents[tag];
        if (!document->is_unmarked)
            continue;
        sam_status code = sam_server_mark_dirty(session->server, (uint16_t)tag);
        document->is_unmarked = !is_taken(code) && code != SAM_NONE;
        are_put &= !document->is_unmarked || code == SAM_MARK_NOT_ANNOUNCED; /* the terminal doesn't know the file yet */
        if (!document->is_unmarked)
            record_document(session, (uint16_t)tag);
    }
    return are_put;
}

static bool hear(struct session *session)
{
    uint8_t message[SAM_LINK_MOST_NOTE];
    size_t len;

    return sam_server_heard(session->server, message, sizeof message, &len) == SAM_OK && do_message(session, message, len);
}

/* Does what the server asks for. Returns whether there was memory for it. */
static bool do_effect(struct session *session, const sam_effect *effect)
{
    if (!session->is_done && effect->kind == SAM_EFFECT_WRITE)
        write_file(session, effect->tag);
    else if (!session->is_done && effect->kind == SAM_EFFECT_CLOSE && !save_closing(session, effect->tag))
        return false;
    else if (!session->is_done && effect->kind == SAM_EFFECT_HEAR && !hear(session))
        return false;
    session->is_done = true;
    put_messages(session);
    if (session->messages.waiting != NULL || !put_marks(session) || !is_taken(sam_server_effect_done(session->server, 0)))
        return false;
    session->is_done = false;
    session->is_met = true;
    return true;
}

/* Does what the server asks for; or gives it what was read, which stands behind all that it asks for. Returns whether there was something
 * to do, and memory for it. */
static bool go_further(struct session *session)
{
    sam_effect effect;

    return sam_server_next_effect(session->server, &effect) == SAM_OK ? do_effect(session, &effect) : feed(session);
}

/* ---- All of it ---- */

/* Whether something waits that has come, or that is to go out, since memory is out for it. */
static bool is_left(struct session *session, sam_status code)
{
    sam_effect effect;
    size_t len;

    return code == SAM_UNFINISHED || session->in.sent < session->in.len || (session->is_named && session->messages.waiting != NULL) ||
           sam_server_next_effect(session->server, &effect) == SAM_OK || sam_server_record_len(session->server, &len) == SAM_OK;
}

/* Whether the terminal has opened a file, or a text is not written: such a session is not let go like one to which no terminal came. */
static bool has_been_used(struct session *session)
{
    size_t tags = session->is_met ? 0 : count_tags(session);
    bool is_used = false, is_open = false;

    for (size_t tag = 1; tag < tags && !is_used; tag++) {
        bool is_known = sam_server_is_open(session->server, (uint16_t)tag, &is_open) == SAM_OK;
        is_used = (is_known && is_open) || is_changed(session, (uint16_t)tag);
    }
    return is_used;
}

/* Once all is done: the files that are closed by now are none of the session any more. */
static void forget_closed_files(struct session *session)
{
    report_closed(session);
    for (size_t tag = 1, tags = count_tags(session); tag < tags; tag++)
        forget_closed(session, (uint16_t)tag);
}

enum ending take_turns(struct session *session)
{
    bool is_over = false, was_short = session->is_short, are_marked = true;
    sam_status code;

    do {
        code = sam_server_go_on(session->server);
        if (code == SAM_OK) {
            put_messages(session);
            are_marked = put_marks(session); /* before the terminal can close what is to be marked */
            settle(session);
        }
    } while (code == SAM_OK && are_marked && go_further(session));
    settle(session); /* what was said of a line that broke */
    code = sam_server_go_on(session->server);
    if (sam_is_stop(code)) {
        say("the terminal's stream is wrong (status %u)", (unsigned)code);
        return FAULT;
    }
    session->is_met |= has_been_used(session);
    session->is_short = !are_marked || is_left(session, code);
    if (!session->is_short)
        forget_closed_files(session);
    else if (!was_short)
        say("out of memory; it is tried again");
    return sam_server_is_done(session->server, &is_over) == SAM_OK && is_over ? LEFT : GOES_ON;
}

enum ending take_all(struct session *session)
{
    enum ending ending;
    int tries = 0;

    do
        ending = take_turns(session);
    while (ending == GOES_ON && session->is_short && is_tried_again(ENOMEM, &tries));
    if (ending == GOES_ON && session->is_short) {
        say("what came last from the terminal is lost: %s", cause(ENOMEM));
        session->is_cut_off = true; /* a file may count as written that is not, so all are compared with the disk */
    }
    return ending;
}
