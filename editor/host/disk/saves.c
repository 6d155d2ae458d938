/* saves.c: writes a file when the terminal says so.
 *
 * A file that another program changed is not replaced at once: that is reported, and only the next write replaces it, and keeps what it had
 * beside it. What can't be written is saved aside at once, and its file is marked as dirty.
 */
#define _XOPEN_SOURCE 700
#include <errno.h>
#include <stdlib.h>
#include <string.h>
#include <unistd.h>

#include "disk/saves.h"
#include "disk/errors.h"
#include "journal/journal_records.h"
#include "session/persistent_session.h"
#include "session/session.h"

char *from_folder(struct session *session, const char *path)
{
    bool is_seen = !session->is_away || *path == '/';

    enter_folder(session);
    return is_seen ? formatted("%s", path) : formatted("%s/%s", session->folder, path);
}

char *path_of(struct session *session, uint16_t tag, int *error)
{
    const struct document *document = &session->documents[tag];
    char name[NAME_ROOM + 1];
    size_t len = 0;

    sam_status code = is_closing(session, tag) ? sam_server_closed_name(session->server, (uint8_t *)name, NAME_ROOM, &len)
                                               : sam_server_name(session->server, tag, (uint8_t *)name, NAME_ROOM, &len);
    if (code != SAM_OK)
        len = 0;
    name[len] = '\0';
    bool is_cut = document->held.bytes != NULL || (document->shown != NULL && strcmp(name, document->shown) == 0);
    const char *whole = is_cut ? document->path : *last_of(name) == '\0' || strlen(name) != len ? NULL : name;
    char *path = whole == NULL ? NULL : from_folder(session, whole);
    *error = path != NULL ? 0 : whole == NULL ? NO_NAME : ENOMEM;
    return path;
}

/* ---- What is known of files ---- */

struct known *find_known(const struct document *document, const char *path)
{
    struct known *known = document->known;

    while (known != NULL && strcmp(known->path, path) != 0)
        known = known->next;
    return known;
}

int remember_content(struct document *document, const char *path, struct content content)
{
    struct known *known = find_known(document, path);

    if (known == NULL) {
        known = malloc(sizeof *known);
        char *own = known == NULL ? NULL : formatted("%s", path);
        if (own == NULL) {
            free(known);
            return ENOMEM;
        }
        *known = (struct known){.next = document->known, .path = own};
        document->known = known;
    }
    known->content = content;
    known->disk = disk_of_folder(path);
    known->is_theirs = false;
    return 0;
}

/* Notes what a request expects in its file: what the document has read there or written last. */
static void expect_known(struct request *request, const struct document *document)
{
    const struct known *known = find_known(document, request->path);

    if (known != NULL) {
        request->known = known->content;
        request->disk = known->content.kind == NOT_THERE ? 0 : known->disk;
        request->is_theirs = known->is_theirs;
    }
}

/* ---- Writing ---- */

/* After an attempt to write: notes what the file has, and lets go of the copy of a text that is written. Where memory is
 * out, a file is not noted, and is taken for another program's at the next write; so is one of which the disk may have anything. */
static void remember_put(struct document *document, const struct request *request, int error)
{
    struct content put = content_of(request->text);
    bool is_copy = document->aside.path != NULL && strcmp(document->aside.path, request->path) == 0;

    put.kind = request->is_unsure ? NOT_SURE : READ;
    if (error == 0 || request->is_unsure)
        (void)remember_content(document, request->path, put);
    else if (error == IS_CHANGED && is_same(request->found, request->known)) /* another file with the same text */
        (void)remember_content(document, request->path, request->found);
    else if (error == IS_CHANGED && remember_content(document, request->path, request->found) == 0)
        find_known(document, request->path)->is_theirs = true;
    if (error == 0 && is_copy) /* the copy is the file by now */
        forget_copy(&document->aside);
    else if (error == 0)
        drop_copy(&document->aside);
}

/* Whether what a file was before a write in place is still beside it. */
static bool has_old(const char *path)
{
    char base[BASE_ROOM];
    char *folder = folder_of(path), *old = NULL;

    base_of(path, base);
    if (folder != NULL)
        old = formatted("%s%s" OLD, folder, base);
    bool has_it = old != NULL && access(old, F_OK) == 0;
    free(old);
    free(folder);
    return has_it;
}

/* Why a file was not written, which may have changed since it was read: in words of its own where it isn't there now, or wasn't then, or
 * can't be read, or where a write may have broken off. */
static int in_its_own_words(int error, const struct request *request)
{
    if (error != IS_CHANGED)
        return error;
    return request->known.kind == NOT_THERE   ? IS_THERE
           : request->found.kind == NOT_THERE ? IS_GONE
           : request->found.kind == NOT_READ  ? NOT_SEEN
           : has_old(request->path)           ? MAY_BE_BROKEN
                                              : IS_CHANGED;
}

/* Puts the text of a file where its path leads to. Hands out where what another program had written there is now, else NULL. */
static int put_text(struct session *session, uint16_t tag, const char *path, char **theirs)
{
    struct document *document = &session->documents[tag];
    struct request request = {.text = &session->text, .mode = session->mode_of_new_files};
    char *end = NULL;
    int error = end_of_links(path, &end);

    write_line(session); /* what follows may take long */
    if (error == 0) {
        request.path = end;
        expect_known(&request, document);
        error = take_text(session, tag);
    }
    if (error == 0) {
        error = put_file(&request);
        remember_put(document, &request, error);
    }
    if (request.old != NULL)
        tell(&(struct event){.kind = SAM_NOTE_ASIDE, .code = SAM_NOTE_BROKEN, .tag = tag, .path = path, .copy = request.old},
             "%s is broken; what it was is in %s", path, request.old);
    free(request.old);
    *theirs = request.theirs;
    error = in_its_own_words(error, &request);
    free(end);
    return error;
}

/* Saves a text that was not written, and answers why it was not, and where it is. */
static void answer_unwritten(struct session *session, uint16_t tag, const char *path, int why)
{
    enum place place;
    int error = secure(session, tag, &place);
    char *unnamed = path == NULL ? formatted("file %u", (unsigned)tag) : NULL;
    const char *name = path != NULL ? path : unnamed != NULL ? unnamed : "a file";
    struct event event = {.kind = SAM_NOTE_NOT_SAVED, .code = code_of(why), .tag = tag, .path = path};

    if (error == 0) /* the text is on the disk, if it is not in the file itself */
        event.copy = place == ASIDE ? session->documents[tag].aside.path : path;
    if (error != 0)
        answer_write(session, event, "not written: %s: %s; its text could not be saved: %s", name, cause(why), cause(error));
    else if (place == ASIDE)
        answer_write(session, event, "not written: %s: %s; its text is in %s", name, cause(why), event.copy);
    else
        answer_write(session, event, "not written: %s: %s; it has this text already", name, cause(why));
    free(unnamed);
}

void report_taken(struct session *session)
{
    size_t tags = count_tags(session);

    for (size_t tag = 1; tag < tags; tag++) {
        int error;
        if (!session->documents[tag].is_unmarked)
            continue;
        char *path = path_of(session, (uint16_t)tag, &error);
        answer_unwritten(session, (uint16_t)tag, path, NOT_WRITTEN);
        free(path);
    }
}

/* Answers that a file is written: where what another program had put there is now; or where its terminal, when it took the session over,
 * was told that it is not, that it is. */
static void answer_written(struct session *session, uint16_t tag, const char *path, const char *theirs)
{
    struct document *document = &session->documents[tag];
    struct event event = {.kind = SAM_NOTE_SAVED, .tag = tag, .path = path, .copy = theirs};
    bool was_taken = document->is_taken;

    document->is_taken = false;
    if (theirs == NULL) {
        answer_write(session, event, was_taken ? "%s is written" : "", path);
        return;
    }
    event.code = SAM_NOTE_REPLACED;
    answer_write(session, event, "%s is replaced; what another program had written there is in %s", path, theirs);
}

/* Whether the terminal drops a text that an earlier session saved: it writes it empty. */
static bool is_dropped(struct session *session, uint16_t tag)
{
    uint32_t runes = 1;

    return session->documents[tag].purpose == LEFT_OVER && sam_server_len(session->server, tag, &runes) == SAM_OK && runes == 0;
}

/* Removes such a text, unless it is another one by now. */
static void drop_left(struct session *session, uint16_t tag, const char *path)
{
    struct document *document = &session->documents[tag];
    const struct known *known = find_known(document, path);
    struct content found = content_at(path);
    struct event event = {.kind = SAM_NOTE_SAVED, .tag = tag, .path = path};
    int error = 0;

    drop_copy(&document->aside);
    if (found.kind != NOT_THERE && (known == NULL || !is_same(found, known->content)))
        error = IS_CHANGED;
    else if (found.kind != NOT_THERE && unlink(path) != 0)
        error = errno;
    if (error == 0) {
        answer_write(session, event, "");
        return;
    }
    document->is_unmarked = true;
    event.kind = SAM_NOTE_NOT_SAVED;
    event.code = code_of(error);
    answer_write(session, event, "%s is not dropped: %s", path, error == IS_CHANGED ? "it has changed since" : cause(error));
}

/* Whether the text of a file was read anew, and its file has it still: then it is not written once more. */
static bool has_it_anew(struct session *session, uint16_t tag)
{
    struct document *document = &session->documents[tag];
    bool has_it = document->is_reloaded && take_text(session, tag) == 0 && stands_in_its_file(session, tag);

    document->is_reloaded = false;
    if (has_it)
        drop_copy(&document->aside);
    return has_it;
}

/* Writes a file, and answers. */
static void write_text(struct session *session, uint16_t tag)
{
    int error;
    char *theirs = NULL, *path = path_of(session, tag, &error);

    if (path != NULL && is_dropped(session, tag)) {
        drop_left(session, tag, path);
    } else {
        if (path != NULL && !has_it_anew(session, tag))
            error = put_text(session, tag, path, &theirs);
        session->documents[tag].is_unmarked = error != 0;
        if (error != 0)
            answer_unwritten(session, tag, path, error);
        else
            answer_written(session, tag, path, theirs);
    }
    free(theirs);
    free(path);
}

void write_file(struct session *session, uint16_t tag)
{
    if (is_hidden(session, tag) && session->documents[tag].purpose != LEFT_OVER)
        return;
    write_text(session, tag);
    record_document(session, tag);
    record_copies(session);
}
