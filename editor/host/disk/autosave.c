/* autosave.c: saves texts that are not written.
 *
 * A changed text goes to NAME.sam-saved beside its file, or to a folder of the user's own where that can't be. It goes there when its
 * file could not be written, when the user pauses, when its file is closed and when the session ends. It is removed once it is written. So
 * does what was cut last and stands nowhere else, until it is pasted or the terminal leaves.
 */
#define _GNU_SOURCE
#include <errno.h>
#include <fcntl.h>
#include <poll.h>
#include <stdlib.h>
#include <string.h>
#include <sys/stat.h>
#include <unistd.h>

#include "disk/autosave.h"
#include "disk/errors.h"
#include "disk/file_reader.h"
#include "disk/saves.h"
#include "journal/journal_records.h"
#include "net/event_loop.h"
#include "session/session.h"

enum {
    MOST_TRIES = 20, /* attempts where memory is out */
    PAUSE = 100      /* milliseconds between two of them */
};

int take_text(struct session *session, uint16_t tag)
{
    struct text *text = &session->text;
    const struct text *held = &session->documents[tag].held;
    uint32_t runes;

    if (held->bytes != NULL) {
        memcpy(text->bytes, held->bytes, held->len);
        text->len = held->len;
        return 0;
    }
    sam_status code = tag == THE_CUT             ? sam_server_snarf(session->server, 0, text->bytes, MOST_BYTES, &text->len, &runes)
                      : is_closing(session, tag) ? sam_server_closed_text(session->server, text->bytes, MOST_BYTES, &text->len)
                                                 : sam_server_text(session->server, tag, 0, text->bytes, MOST_BYTES, &text->len, &runes);
    return code == SAM_OK ? 0 : ENOENT;
}

/* ---- Copies ---- */

/* Whether a copy is still there as the host saved it, so that the host may replace or remove it: by its path, inode, size and time, since a
 * machine that begins anew may give its disks other numbers. */
static bool is_own(const struct copy *copy)
{
    struct stat now;

    return copy->path != NULL && lstat(copy->path, &now) == 0 && now.st_ino == copy->inode && (uint64_t)now.st_size == copy->content.len &&
           now.st_mtim.tv_sec == copy->written.tv_sec && now.st_mtim.tv_nsec == copy->written.tv_nsec;
}

void forget_copy(struct copy *copy)
{
    copy->is_unnoted |= copy->path != NULL;
    free(copy->path);
    copy->path = NULL;
}

void drop_copy(struct copy *copy)
{
    if (is_own(copy))
        unlink(copy->path);
    forget_copy(copy);
}

/* What a text is called, in memory of its own: by the path of its file; where it has none by what it is, and `end` behind that. That is ""
 * in lines, and OF_NO_FILE where copies are named. */
static char *name_of(struct session *session, uint16_t tag, const char *end)
{
    int error = 0;
    char *path = tag == THE_CUT ? NULL : path_of(session, tag, &error);

    if (path != NULL || error == ENOMEM)
        return path;
    char *own = tag == THE_CUT ? formatted(CUT "%s", end) : formatted(UNNAMED "%u%s", (unsigned)tag, end);
    char *name = own == NULL ? NULL : from_folder(session, own);
    free(own);
    return name;
}

/* Saves a text where it was saved before, unless its file has another name since; else in a new copy, as keep does. An older copy goes
 * then, where it is the host's own; but it stays where the newer one may be in memory alone. ENOMEM where the name is NULL. */
static int save_copy(const struct text *text, const char *name, const char *like, struct copy *copy)
{
    struct copy newer;
    bool is_there = is_own(copy), has_it = is_there && is_same(copy->content, content_of(text));

    if (is_there && (name == NULL || is_named_after(copy, name)) && (has_it || keep_again(text, copy) == 0))
        return 0;
    int error = name == NULL ? ENOMEM : keep(text, name, like, SAVED, &newer);
    if (error != 0)
        return is_there && (has_it || keep_again(text, copy) == 0) ? 0 : error;
    if (newer.is_temporary && newer.device != copy->device) /* a power cut may leave neither */
        forget_copy(copy);
    else
        drop_copy(copy); /* an older text, where there is no room for this one */
    *copy = newer;
    return 0;
}

/* Saves the text in session->text. */
static int save_aside(struct session *session, uint16_t tag)
{
    char *name = name_of(session, tag, OF_NO_FILE);
    bool is_file = name != NULL && *last_of(name) != '\0';
    int error = save_copy(&session->text, name, is_file ? name : NULL, &session->documents[tag].aside);

    free(name);
    return error;
}

bool is_tried_again(int error, int *tries)
{
    if (error != ENOMEM || ++*tries > MOST_TRIES)
        return false;
    (void)poll(NULL, 0, PAUSE);
    return true;
}

/* ---- What is told ---- */

/* Says where a text is that was not written. */
static void tell_aside(uint16_t tag, const char *name, const char *copy)
{
    if (tag == THE_CUT)
        tell(&(struct event){.kind = SAM_NOTE_ASIDE, .code = SAM_NOTE_CUT, .copy = copy}, "what was cut last is in %s", copy);
    else
        tell(&(struct event){.kind = SAM_NOTE_ASIDE, .tag = tag, .path = name, .copy = copy}, "%s was not written; its text is in %s", name,
             copy);
}

/* Says why a text can't be saved, which is tried again; or that it is lost. The name is NULL where memory is out. */
static void tell_unsaved(uint16_t tag, const char *name, int error, bool is_lost)
{
    struct event event = {.kind = is_lost ? SAM_NOTE_LOST : SAM_NOTE_ASIDE, .code = code_of(error), .tag = tag, .path = name};

    name = name == NULL ? "a file" : name;
    if (tag == THE_CUT)
        event = (struct event){.kind = SAM_NOTE_LOST, .code = SAM_NOTE_CUT};
    if (tag == THE_CUT && !is_lost)
        tell(&event, "what was cut last can't be saved aside: %s", cause(error));
    else
        tell(&event, is_lost ? "the text of %s is lost: %s" : "the text of %s can't be saved aside: %s", tag == THE_CUT ? CUT : name,
             cause(error));
}

/* Tells where the text of a file is that is closed, or never written any more. It is held no longer. */
static void tell_saved(struct session *session, uint16_t tag, const char *name, enum place place)
{
    struct document *document = &session->documents[tag];

    if (place == ASIDE)
        tell_aside(tag, name, document->aside.path);
    if (document->held.bytes == NULL)
        return;
    free(document->held.bytes);
    document->held = (struct text){0};
    record_document(session, tag);
}

/* ---- Changed texts ---- */

/* Whether something was cut last that stands in no file of the user's, nor in a copy that an earlier session saved. */
static bool is_cut_alone(struct session *session)
{
    struct text *cut = &session->cut, *text = &session->text;

    if (take_text(session, THE_CUT) != 0 || text->len == 0)
        return false;
    memcpy(cut->bytes, text->bytes, text->len);
    cut->len = text->len;
    for (size_t tag = 1, tags = count_tags(session); tag < tags; tag++) {
        bool may_have_it = !is_hidden(session, tag) || session->documents[tag].purpose == LEFT_OVER;
        if (may_have_it && take_text(session, (uint16_t)tag) == 0 && memmem(text->bytes, text->len, cut->bytes, cut->len) != NULL)
            return false;
    }
    return true;
}

bool is_changed(struct session *session, uint16_t tag)
{
    bool is_dirty = true;

    if (tag == THE_CUT)
        return is_cut_alone(session);
    if (is_hidden(session, tag))
        return false;
    if (!has_file(session, tag))
        return session->documents[tag].held.bytes != NULL || is_closing(session, tag);
    if (session->is_cut_off)
        return true;
    return sam_server_is_dirty(session->server, tag, &is_dirty) != SAM_OK || is_dirty || session->documents[tag].is_unmarked;
}

/* Whether the disk has what a file seems to have. After a write that failed no sync tells: the system may count as written what it could
 * not write. */
static bool is_on_disk(const struct document *document, const char *path)
{
    char *end = NULL;
    const struct known *known = end_of_links(path, &end) == 0 ? find_known(document, end) : NULL;
    bool is_sure = known == NULL || known->content.kind != NOT_SURE;

    free(end);
    return is_sure && sync_file(path);
}

bool stands_in_its_file(struct session *session, uint16_t tag)
{
    int error;
    char *path = path_of(session, tag, &error);
    bool stands = path != NULL && !is_copy_at(session, path) && is_same(content_at(path), content_of(&session->text)) &&
                  is_on_disk(&session->documents[tag], path);

    free(path);
    return stands;
}

int secure(struct session *session, uint16_t tag, enum place *place)
{
    bool is_unsaved = is_changed(session, tag);
    int error = is_unsaved ? take_text(session, tag) : 0;

    *place = IN_ITS_FILE;
    if (tag == THE_CUT ? !is_unsaved : is_unsaved && error == 0 && stands_in_its_file(session, tag))
        drop_copy(&session->documents[tag].aside);
    else if (is_unsaved) {
        *place = ASIDE;
        error = error != 0 ? error : save_aside(session, tag);
    }
    return error;
}

/* The tag of a text by its place among all, counted from 1: what was cut last comes last. */
static uint16_t tag_at(size_t at, size_t tags)
{
    return at < tags ? (uint16_t)at : THE_CUT;
}

bool save_changed(struct session *session)
{
    bool all = true;
    enum place place;

    for (size_t at = 1, tags = count_tags(session); at <= tags; at++) {
        uint16_t tag = tag_at(at, tags);
        struct document *document = &session->documents[tag];
        int error = secure(session, tag, &place);
        bool is_told = error != 0 ? !document->is_reported : document->held.bytes != NULL;
        char *name = is_told ? name_of(session, tag, "") : NULL;
        if (is_told && error == 0)
            tell_saved(session, tag, name == NULL ? "a file" : name, place);
        else if (is_told)
            tell_unsaved(tag, name, error, false);
        document->is_reported = error != 0;
        all &= error == 0;
        free(name);
    }
    return all;
}

bool is_copy_at(struct session *session, const char *path)
{
    struct stat status, own;
    bool is_there = stat(path, &status) == 0;

    for (size_t tag = THE_CUT, tags = count_tags(session); is_there && tag < tags; tag++) {
        const struct copy *aside = &session->documents[tag].aside;
        if (is_own(aside) && lstat(aside->path, &own) == 0 && own.st_dev == status.st_dev && own.st_ino == status.st_ino)
            return true;
    }
    return false;
}

/* ---- Closing and leaving ---- */

/* Has the document of a closed file hold its text, which is tried again later, and at the end. Returns whether there is memory for it. */
static bool hold_closed(struct session *session, uint16_t tag, const char *name)
{
    struct document *document = &session->documents[tag];
    int error = 0;
    char *path = path_of(session, tag, &error), *shown = shown_name(name);
    uint8_t *bytes = take_text(session, tag) != 0 ? NULL : malloc(session->text.len + 1);

    if (error == ENOMEM || shown == NULL || bytes == NULL) {
        free(path);
        free(shown);
        free(bytes);
        return false;
    }
    memcpy(bytes, session->text.bytes, session->text.len);
    free(document->path);
    free(document->shown);
    free(document->held.bytes); /* the same, where the file is closed once more by a journal */
    document->path = path;
    document->shown = shown;
    document->held = (struct text){bytes, session->text.len};
    document->is_reported = true;
    return true;
}

bool save_closing(struct session *session, uint16_t tag)
{
    enum place place;
    char *name = name_of(session, tag, "");
    int error = name == NULL ? ENOMEM : secure(session, tag, &place);

    if (error == ENOMEM || (error != 0 && !hold_closed(session, tag, name))) {
        free(name);
        return false;
    }
    if (error != 0)
        tell(&(struct event){.kind = SAM_NOTE_ASIDE, .code = code_of(error), .tag = tag, .path = name},
             "%s is closed, and its text can't be saved: %s", name, cause(error));
    else
        tell_saved(session, tag, name, place);
    free(name);
    report_closing(session, tag);
    record_document(session, tag);
    return true;
}

void free_document(struct document *document)
{
    while (document->known != NULL) {
        struct known *known = document->known;
        document->known = known->next;
        free(known->path);
        free(known);
    }
    free(document->path);
    free(document->shown);
    free(document->aside.path);
    free(document->held.bytes);
    free(document->answer);
    *document = (struct document){0};
}

void forget_closed(struct session *session, uint16_t tag)
{
    if (!has_file(session, tag) && !is_closing(session, tag) && session->documents[tag].held.bytes == NULL)
        free_document(&session->documents[tag]);
}

bool save_for_good(struct session *session, uint16_t tag)
{
    enum place place;
    int error, tries = 0;

    do
        error = secure(session, tag, &place);
    while (is_tried_again(error, &tries));
    char *name = name_of(session, tag, "");
    if (error != 0)
        tell_unsaved(tag, name, error, true);
    else
        tell_saved(session, tag, name == NULL ? "a file" : name, place);
    free(name);
    return error == 0;
}

bool save_last(struct session *session, bool has_left)
{
    bool all = !session->is_cut_off;

    if (has_left)
        drop_copy(&session->documents[THE_CUT].aside);
    for (size_t at = 1, tags = count_tags(session); at <= tags; at++) {
        uint16_t tag = tag_at(at, tags);
        if (tag == THE_CUT ? !has_left : is_changed(session, tag))
            all &= save_for_good(session, tag);
    }
    return all;
}
