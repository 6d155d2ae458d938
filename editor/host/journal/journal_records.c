/* journal_records.c: what a journal has of a session beside the records of its server. */
#define _GNU_SOURCE
#include <errno.h>
#include <stdlib.h>
#include <string.h>

#include "journal/journal_records.h"
#include "session/session.h"

/* ---- A document ---- */

/* Where fields go: into a body that is made, or out of a record that is read. So both have one form. */
struct pass {
    struct body *into;
    struct record *from; /* NULL where a body is made */
};

static uint64_t pass_number(struct pass *pass, uint64_t number)
{
    if (pass->from != NULL)
        return take_number(pass->from);
    add_number(pass->into, number);
    return number;
}

static void pass_words(struct pass *pass, char **words)
{
    size_t len;

    if (pass->from == NULL) {
        add_words(pass->into, *words, *words == NULL ? 0 : strlen(*words));
        return;
    }
    free(*words);
    *words = take_words(pass->from, &len);
}

static void pass_text(struct pass *pass, struct text *text)
{
    if (pass->from == NULL)
        add_words(pass->into, text->bytes, text->len);
    else
        text->bytes = (uint8_t *)take_words(pass->from, &text->len);
}

static void pass_content(struct pass *pass, struct content *content)
{
    uint64_t kind = pass_number(pass, content->kind);

    content->kind = kind <= NOT_SURE ? kind : NOT_THERE;
    content->hash = pass_number(pass, content->hash);
    content->len = pass_number(pass, content->len);
}

static void pass_copy(struct pass *pass, struct copy *copy)
{
    pass_words(pass, &copy->path);
    copy->device = (dev_t)pass_number(pass, copy->device);
    copy->inode = (ino_t)pass_number(pass, copy->inode);
    copy->written.tv_sec = (time_t)pass_number(pass, (uint64_t)copy->written.tv_sec);
    copy->written.tv_nsec = (long)pass_number(pass, (uint64_t)copy->written.tv_nsec);
    pass_content(pass, &copy->content);
}

/* What is known of files, in its order. */
static void pass_known(struct pass *pass, struct known **at)
{
    uint64_t count = 0;

    for (const struct known *known = *at; known != NULL; known = known->next)
        count++;
    for (uint64_t left = pass_number(pass, count); left > 0; left--, at = &(*at)->next) {
        if (pass->from != NULL && (pass->from->is_wrong || pass->from->is_short))
            return;
        if (pass->from != NULL && (*at = calloc(1, sizeof **at)) == NULL) {
            pass->from->is_short = true;
            return;
        }
        pass_words(pass, &(*at)->path);
        pass_content(pass, &(*at)->content);
        (*at)->disk = (dev_t)pass_number(pass, (*at)->disk);
        (*at)->is_theirs = pass_number(pass, (*at)->is_theirs) != 0;
        if (pass->from != NULL)
            pass->from->is_wrong |= (*at)->path == NULL && !pass->from->is_short;
    }
}

static void pass_document(struct pass *pass, struct document *document)
{
    pass_words(pass, &document->path);
    pass_words(pass, &document->shown);
    document->is_unmarked = pass_number(pass, document->is_unmarked) != 0;
    document->is_taken = pass_number(pass, document->is_taken) != 0;
    document->is_reported = pass_number(pass, document->is_reported) != 0;
    document->purpose = (enum purpose)pass_number(pass, document->purpose);
    pass_copy(pass, &document->aside);
    pass_text(pass, &document->held);
    pass_known(pass, &document->known);
    uint64_t request = pass_number(pass, document->answer == NULL ? 0 : document->answer->request);
    if (pass->from != NULL && request != 0)
        pass->from->is_short |= !expect_write(document, (uint32_t)request);
}

void take_document(struct session *session, struct record *record)
{
    uint64_t tag = take_number(record);
    struct document document = {0};

    pass_document(&(struct pass){.from = record}, &document);
    record->is_wrong |= tag >= ALL_TAGS || document.purpose > READ_ANEW;
    if (tag >= ALL_TAGS) {
        free_document(&document);
        return;
    }
    free_document(&session->documents[tag]);
    session->documents[tag] = document;
}

/* ---- Entries ---- */

void record_document(struct session *session, uint16_t tag)
{
    struct body body = {0};

    add_number(&body, tag);
    pass_document(&(struct pass){.into = &body}, &session->documents[tag]);
    session->documents[tag].aside.is_unnoted = false;
    add_entry(session, ENTRY_KNOWN, &body);
}

void record_copies(struct session *session)
{
    for (size_t tag = THE_CUT, tags = count_tags(session); tag < tags; tag++) {
        if (session->documents[tag].aside.is_unnoted)
            record_document(session, (uint16_t)tag);
    }
}

/* Records how a session began, and its files. The form stands first, so that it is found in a journal of each form; those up to 4 have the
 * number 1 there. */
static void record_start(struct session *session)
{
    struct body body = {.is_short = session->folder == NULL};

    add_number(&body, (uint64_t)RECORDS_FORM << 32 | sam_library_version());
    add_words(&body, session->folder, session->folder == NULL ? 0 : strlen(session->folder));
    add_number(&body, session->mode_of_new_files);
    add_number(&body, (uint64_t)session->longest_alone);
    add_raw(&body, session->id, SAM_LINK_ID_BYTES);
    add_entry(session, ENTRY_START, &body);
    settle(session);
    for (size_t tag = 1, tags = count_tags(session); tag < tags; tag++)
        record_document(session, (uint16_t)tag);
    add_entry(session, ENTRY_BEGUN, &(struct body){0});
    settle(session);
}

bool take_start(struct record *record, struct start *start)
{
    uint64_t written_by = take_number(record);
    size_t len;

    *start = (struct start){.is_other = (uint32_t)written_by != sam_library_version()};
    if (written_by >> 32 != RECORDS_FORM)
        return false;
    start->folder = take_words(record, &len);
    start->mode_of_new_files = (mode_t)take_number(record);
    start->longest_alone = (int64_t)take_number(record);
    return true;
}

void begin_fresh_journal(struct session *session)
{
    struct journal *journal = &session->journal;
    bool was_held = journal->is_held;
    int lost = journal->lost, tries = 0;

    close_journal(journal);
    make_journal(session);
    put_messages(session);
    record_start(session);
    while (!is_settled(session) && is_tried_again(ENOMEM, &tries))
        settle(session);
    int error = !is_settled(session) ? ENOMEM : 0;
    if (error == 0 && writes_records(journal))
        error = place_journal(session);
    if (error != 0 && writes_records(journal))
        hold_journal(session, error);
    if (was_held && journal->is_held)
        journal->lost = lost; /* it was told, if it is 0 */
    else if (was_held && lost == 0)
        say("the journal is written again");
}
