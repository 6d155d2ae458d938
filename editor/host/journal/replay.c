/* replay.c: makes a session again of its journal.
 *
 * The library makes the server again of its records. An effect whose end no record has is asked for again: a file may be written twice,
 * with the same text. What samhost knows beside the server is what the records said last.
 */
#define _GNU_SOURCE
#include <errno.h>
#include <stdint.h>
#include <stdlib.h>
#include <string.h>
#include <sys/stat.h>
#include <unistd.h>

#include "journal/replay.h"
#include "disk/errors.h"
#include "journal/journal_records.h"
#include "session/session.h"

/* A session that is being made again. */
struct replay {
    struct session *session;
    sam_recovery recovery;
    size_t taken, most; /* records of the server: how many were taken, and how many there are */
    bool is_again;      /* all else is known */
    bool has_begun;     /* all of its first files are there */
    bool is_other;      /* another version of the library has written it */
    bool is_unfinished; /* it could not be written to its end; as with one that is damaged, what was done behind that is not known */
    bool is_damaged;
    enum replay_fault fault;
};

/* ---- Entries ---- */

/* Begins with a server of this id, which is zeros before a terminal has come. */
static void begin_server(struct replay *replay, struct record *record)
{
    struct session *session = replay->session;

    record->is_wrong |= record->len < SAM_LINK_ID_BYTES;
    if (record->is_wrong)
        return;
    memcpy(session->id, record->body, SAM_LINK_ID_BYTES);
    record->body += SAM_LINK_ID_BYTES;
    record->len -= SAM_LINK_ID_BYTES;
    for (int at = 0; at < SAM_LINK_ID_BYTES; at++)
        session->is_named |= session->id[at] != 0;
    if (sam_recovery_new(&replay->recovery, session->id) != SAM_OK)
        replay->fault = REPLAY_SHORT;
}

/* Enters the folder in which the session began. A session that only ends needs none: its texts are saved elsewhere. */
static void enter(struct replay *replay, char *folder)
{
    struct session *session = replay->session;

    session->folder = folder;
    session->is_away = folder == NULL || chdir(folder) != 0;
    if (session->is_away)
        say("%s: %s", folder == NULL ? "the folder of the session" : folder, cause(errno));
    if (session->is_away && (folder == NULL || !session->is_to_end))
        replay->fault = REPLAY_NO_FOLDER;
}

static void begin_as_recorded(struct replay *replay, struct record *record)
{
    struct session *session = replay->session;
    struct start start;

    if (!take_start(record, &start)) {
        replay->fault = REPLAY_OTHER_FORM;
        return;
    }
    replay->is_other = start.is_other;
    session->mode_of_new_files = start.mode_of_new_files;
    session->longest_alone = start.longest_alone;
    umask(0666 & ~session->mode_of_new_files);
    if (replay->is_again)
        free(start.folder);
    else
        enter(replay, start.folder);
    if (replay->fault == REPLAY_OK)
        begin_server(replay, record);
}

static void take_server_record(struct replay *replay, const struct record *record)
{
    sam_status code = sam_recovery_take(&replay->recovery, record->body, record->len);

    if (code != SAM_OK)
        replay->fault = code == SAM_NO_MEMORY ? REPLAY_SHORT : REPLAY_DIFFERS;
    replay->taken += code == SAM_OK;
}

static void take_ended(struct session *session, uint64_t status)
{
    session->has_ended = true;
    session->is_kept |= status == STATUS_LOST; /* the journal has what could not be saved */
}

static void replay_entry(struct replay *replay, uint8_t kind, struct record *record)
{
    struct session *session = replay->session;

    if (kind == ENTRY_SERVER)
        take_server_record(replay, record);
    else if (kind == ENTRY_BEGUN)
        replay->has_begun = true;
    else if (kind == ENTRY_KNOWN)
        take_document(session, record);
    else if (kind == ENTRY_ENDED)
        take_ended(session, take_number(record));
    else
        record->is_wrong = true;
    if (record->is_short)
        replay->fault = REPLAY_SHORT;
}

static void replay_record(struct replay *replay, struct record *record)
{
    while (record->len > 0 && replay->fault == REPLAY_OK && replay->taken < replay->most) {
        uint8_t kind = take_byte(record);
        struct record entry = {0};
        if (kind == ENTRY_START)
            begin_as_recorded(replay, record);
        else {
            entry.body = take_data(record, &entry.len);
            if (!record->is_wrong && (kind == ENTRY_SERVER || !replay->is_again))
                replay_entry(replay, kind, &entry);
        }
        if ((record->is_wrong || entry.is_wrong) && replay->fault == REPLAY_OK)
            replay->fault = REPLAY_DIFFERS;
    }
}

/* ---- All of them ---- */

/* Takes all whole records, and hands out where the last one ends. */
static struct record_place replay_all(struct replay *replay, const struct text *all)
{
    struct record_place end = first_record();
    struct record record;

    while (replay->fault == REPLAY_OK && next_record(all, replay->session->journal.random, &end, &record))
        replay_record(replay, &record);
    return end;
}

/* Cuts off what a crash has left of the last records. Where the journal is damaged instead, or nothing is to be added, it stays as it is:
 * the disk had what stands before what its records say. */
static enum replay_fault cut_to_whole_records(struct replay *replay, const struct text *all)
{
    struct session *session = replay->session;
    size_t end = session->journal.end.at;

    replay->is_damaged = !replay->has_begun || is_journal_damaged(all, end);
    if (!replay->has_begun)
        return REPLAY_DAMAGED;
    bool is_left = replay->is_damaged || replay->is_unfinished || session->is_to_end || end == all->len;
    return is_left || cut_journal(session, end) == 0 ? REPLAY_OK : REPLAY_UNREADABLE;
}

/* Makes the server, which goes on behind all of them, and forgets closed files. A write whose end nobody knows is none. */
static void finish_server(struct replay *replay)
{
    struct session *session = replay->session;
    sam_effect effect;

    if (sam_recovery_finish(&replay->recovery, session->server) != SAM_OK) {
        replay->fault = REPLAY_SHORT;
        return;
    }
    bool is_cut_short = replay->is_damaged || replay->is_unfinished;
    if (is_cut_short && sam_server_next_effect(session->server, &effect) == SAM_OK && effect.kind == SAM_EFFECT_WRITE)
        session->documents[effect.tag].is_unmarked = true;
    for (size_t tag = 1, tags = count_tags(session); tag < tags; tag++)
        forget_closed(session, (uint16_t)tag);
    if (!session->is_named && !tell_hidden(session))
        replay->fault = REPLAY_SHORT;
}

/* Makes the server of the records that it took, where it has not taken one, so that its texts are known. */
static void make_known(const struct replay *replay, const struct text *all)
{
    struct replay again = {.session = replay->session, .most = replay->taken, .is_again = true, .is_damaged = true};

    (void)replay_all(&again, all);
    if (again.fault == REPLAY_OK)
        finish_server(&again);
    (void)sam_recovery_free(&again.recovery);
}

bool begin_server_again(struct session *session)
{
    struct replay again = {.session = session, .most = SIZE_MAX, .is_again = true};
    struct text all = {0};
    sam_server *server = calloc(1, sizeof *server);
    bool is_made = server != NULL && complete_journal(session) && map_records(session->journal.file, &all) == 0;

    if (is_made)
        (void)replay_all(&again, &all);
    is_made = is_made && again.fault == REPLAY_OK && sam_recovery_finish(&again.recovery, server) == SAM_OK;
    (void)sam_recovery_free(&again.recovery);
    close_records(&all);
    if (!is_made) {
        free(server);
        return false;
    }
    drop_line(session);
    (void)sam_server_free(session->server);
    free(session->server);
    session->server = server;
    drop_turn(&session->journal);
    return true;
}

enum replay_fault begin_again(struct session *session)
{
    struct replay replay = {.session = session, .most = SIZE_MAX};
    struct text all;
    sam_status head;
    int error = open_journal(session, &all, &head, &replay.is_unfinished);

    replay.fault = error != 0                          ? REPLAY_UNREADABLE
                   : head == SAM_JOURNAL_OTHER_VERSION ? REPLAY_OTHER
                   : head != SAM_OK                    ? REPLAY_DAMAGED
                                                       : REPLAY_OK;
    if (replay.fault == REPLAY_OK && !make_session(session))
        replay.fault = REPLAY_SHORT;
    if (replay.fault == REPLAY_OK)
        session->journal.end = replay_all(&replay, &all);
    if (replay.fault == REPLAY_DIFFERS && replay.taken > 0)
        make_known(&replay, &all);
    if (replay.fault == REPLAY_OK)
        replay.fault = cut_to_whole_records(&replay, &all);
    if (replay.fault == REPLAY_OK)
        finish_server(&replay);
    (void)sam_recovery_free(&replay.recovery);
    close_records(&all);
    if (replay.fault == REPLAY_OK)
        replay.fault = replay.is_damaged      ? REPLAY_DAMAGED
                       : replay.is_unfinished ? REPLAY_UNFINISHED
                       : replay.is_other      ? REPLAY_OTHER
                                              : REPLAY_OK;
    if (replay.fault == REPLAY_OK && !session->is_to_end && fdatasync(session->journal.file) != 0) /* who wrote it may not have done so */
        replay.fault = REPLAY_UNREADABLE;
    if (replay.fault == REPLAY_OK && !session->is_to_end)
        sync_journal(session);
    else
        close_journal(&session->journal); /* it stays as it is */
    return replay.fault;
}
