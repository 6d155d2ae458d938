/* takeover.c: another terminal takes a session over.
 *
 * It gets a server of its own with the names and texts of the old one, so the session is named anew, too. What was not written stays so.
 * Undo, dots, the command window and what the host has cut are the old terminal's: what was cut last is saved aside. All memory is taken
 * before anything changes, and from the new journal on the session is the new terminal's.
 */
#define _GNU_SOURCE
#include <stdio.h>
#include <stdlib.h>
#include <string.h>

#include "session/takeover.h"
#include "disk/errors.h"
#include "disk/saves.h"
#include "journal/journal_records.h"
#include "session/persistent_session.h"
#include "session/session.h"
#include "session/session_control.h"

/* ---- What is handed on ---- */

/* A text that is held is handed on, too: its file is there again for the new terminal, and not written. */
static bool is_handed_on(struct session *session, size_t tag)
{
    return !is_hidden(session, tag) && (has_file(session, tag) || session->documents[tag].held.bytes != NULL);
}

/* Makes a server for the new terminal with the names and texts of the old one, in their order, which takes its hello. NULL where memory is
 * out, or the hello is refused. */
static sam_server *make_heir(struct session *session, const struct caller *caller, sam_status *code)
{
    sam_server *heir = calloc(1, sizeof *heir);
    const struct text *text = &session->text;
    char name[NAME_ROOM + 1];
    size_t len;
    uint16_t tag;

    *code = heir == NULL ? SAM_NO_MEMORY : sam_server_new(heir, caller->id);
    for (size_t old = 1, tags = count_tags(session); *code == SAM_OK && old < tags; old++) {
        if (!is_handed_on(session, old))
            continue;
        if (sam_server_name(session->server, (uint16_t)old, (uint8_t *)name, NAME_ROOM, &len) != SAM_OK)
            len = (size_t)snprintf(name, sizeof name, "%s", session->documents[old].shown);
        if (take_text(session, (uint16_t)old) != 0 ||
            sam_server_add_file(heir, (const uint8_t *)name, len, text->bytes, text->len, &tag) != SAM_OK)
            *code = SAM_NO_MEMORY;
    }
    if (*code == SAM_OK)
        *code = sam_server_accept(heir, caller->bytes, caller->len);
    if (*code == SAM_OK || *code == SAM_UNFINISHED)
        return heir;
    (void)sam_server_free(heir);
    free(heir);
    return NULL;
}

/* Who waits until a file is closed waits for it under its new tag. One of no file is told no more. */
static void hand_waiters(struct session *session, size_t tag, size_t new)
{
    for (int at = 0; at < MOST_WAITERS; at++) {
        struct waiter *waiter = &session->waiters[at];
        if (waiter->socket >= 0 && waiter->tag == tag && new == 0)
            close_file(&waiter->socket);
        else if (waiter->tag == tag)
            waiter->tag = (uint16_t) new;
    }
}

/* Gives what is known of the files their new tags. What is not written is marked, once the new terminal knows it. */
static void hand_documents(struct session *session)
{
    size_t next = 1;

    free_document(&session->documents[THE_CUT]);
    for (size_t old = 1, tags = count_tags(session); old < tags; old++) {
        struct document *from = &session->documents[old], *document = &session->documents[next];
        bool is_on = is_handed_on(session, old), is_unsaved = is_changed(session, (uint16_t)old);
        hand_waiters(session, old, is_on ? next : 0);
        if (!is_on) {
            free_document(from);
            continue;
        }
        if (document != from) {
            *document = *from;
            *from = (struct document){0};
        }
        document->watch = (struct watch){0}; /* the new terminal is told, too */
        free(document->held.bytes);
        document->held = (struct text){0};
        free(document->answer);
        document->answer = NULL;
        document->is_taken = document->is_unmarked = is_unsaved;
        next++;
    }
    session->is_met = true;
}

/* ---- The folder ---- */

/* Writes the journal of the new session, and names its folder by its link. Both names lead to the folder from the first step on, so a kill
 * between two of them, or a folder that can't be named anew, keeps no terminal from it. */
static void name_anew(struct session *session, const char name[NAME_DIGITS + 1])
{
    struct home *home = &session->home;

    write_names(home, home->name, name);
    (void)sync_home(home);
    begin_fresh_journal(session);
    int error = rename_home(home, name);
    if (error != 0)
        say("the folder of session %s can't be named anew: %s; it is found all the same", home->name, cause(error));
    (void)sync_home(home);
    write_about(session);
}

/* ---- All of it ---- */

/* Has the session go on with a server that is made for a new terminal. The old one is told, as far as its line takes that at once: its
 * journal is no more by then, so no other samhost goes on with a session that has said so. */
static void go_on_with(struct session *session, sam_server *heir, struct session *old, const char name[NAME_DIGITS + 1])
{
    hand_documents(session);
    session->server = heir;
    session->is_named = true;
    close_journal(&session->journal); /* so the new terminal is told, too, where it can't be written */
    name_anew(session, name);
    say_the_last(old);
    drop_line(old);
    close_journal(&old->journal);
    free_messages(&old->messages);
    (void)sam_server_free(old->server);
    free(old->server);
}

sam_status take_over(struct session *session, const struct caller *caller)
{
    sam_status code = SAM_NO_MEMORY;
    sam_effect effect;
    char name[NAME_DIGITS + 1];

    if (session->ending != GOES_ON || session->has_ended || session->is_to_end) /* it waits for its terminal to hear of its end */
        return SAM_LINK_NO_SESSION;
    if (session->is_short || sam_server_next_effect(session->server, &effect) == SAM_OK)
        return code; /* a file is to be written before, or to be saved */
    /* The new server takes files for written until they are marked as dirty, and wouldn't ask for their texts if its terminal closed them
     * before. Where one can't be saved it is told once more. */
    (void)save_changed(session);
    sam_server *heir = make_heir(session, caller, &code);
    if (heir == NULL)
        return code;
    struct session old = {.server = session->server, .messages = session->messages, .is_named = session->is_named, .journal.file = -1};
    old.line = session->line;
    old.line_out = session->line_out;
    old.out = session->out;
    session->messages = (struct messages){0};
    session->is_named = false; /* what is told waits for the new server */
    name_of_id(caller->id, name);
    if (!put_first_message(session, name)) {
        session->messages = old.messages;
        session->is_named = old.is_named;
        (void)sam_server_free(heir);
        free(heir);
        return SAM_NO_MEMORY;
    }
    (void)save_for_good(session, THE_CUT);
    memcpy(session->id, caller->id, SAM_LINK_ID_BYTES);
    go_on_with(session, heir, &old, name);
    session->line = session->line_out = -1;
    report_taken(session);
    record_copies(session);
    return SAM_OK;
}
