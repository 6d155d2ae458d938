/* file_watcher.c: notices that another program has changed or removed a file which the terminal has open, and reads a file anew where a
 * message asks for it.
 *
 * Every two seconds the marks of these files are looked at; only a file whose marks have changed is read. The terminal is told once for
 * each text that the session has read or written, so a file that grows all the time is told once; and where a file is gone for longer than
 * another program takes to put a new one in its place.
 *
 * A file that is read anew joins as a file of its own, whose text the terminal puts in the old one's place. It says so by another message:
 * from then on the new text is what the file is known to have.
 */
#define _XOPEN_SOURCE 700
#include <errno.h>
#include <stdlib.h>
#include <sys/stat.h>
#include <unistd.h>

#include "disk/file_watcher.h"
#include "disk/errors.h"
#include "disk/file_reader.h"
#include "disk/saves.h"
#include "journal/journal_records.h"
#include "net/event_loop.h"
#include "session/file_requests.h"
#include "session/session.h"

enum {
    PERIOD = 2000, /* milliseconds between two looks */
    LOOKS_GONE = 2 /* looks at which a file is gone until that is told: programs remove one to put another in its place */
};

/* ---- Watching ---- */

/* Whether a file has other marks than at the last look, or there was none; notes them. */
static bool has_new_marks(struct watch *watch, const struct stat *status)
{
    struct content seen = watch->marks;

    watch->marks = marks_of(status);
    watch->gone = 0;
    return !is_same(watch->marks, seen);
}

/* A file that the session has read is not there. */
static void look_at_gone(struct session *session, uint16_t tag, const char *path)
{
    struct watch *watch = &session->documents[tag].watch;

    if (watch->gone < LOOKS_GONE && ++watch->gone == LOOKS_GONE)
        tell(&(struct event){.kind = SAM_NOTE_CHANGED, .code = SAM_NOTE_NOT_FOUND, .tag = tag, .path = path},
             "%s: another program removed it", path);
}

/* Looks whether a file has what the session knows of it. */
static void look_at(struct session *session, uint16_t tag, const char *path)
{
    struct document *document = &session->documents[tag];
    struct watch *watch = &document->watch;
    struct stat status;
    char *end = NULL;
    const struct known *known = end_of_links(path, &end) == 0 ? find_known(document, end) : NULL;
    bool is_there = known != NULL && stat(end, &status) == 0, is_sure = known != NULL && known->content.kind != NOT_SURE;

    if (known != NULL && !is_there && errno == ENOENT && known->content.kind != NOT_THERE)
        look_at_gone(session, tag, path);
    if (is_there && has_new_marks(watch, &status) && is_sure) {
        bool was_told = watch->is_told && is_same(watch->told, known->content);
        if (!was_told && !is_same(content_at(end), known->content)) {
            watch->is_told = true;
            watch->told = known->content;
            tell(&(struct event){.kind = SAM_NOTE_CHANGED, .tag = tag, .path = path}, "%s: another program changed it", path);
        }
    }
    free(end);
}

static bool is_watched(struct session *session, size_t tag)
{
    bool is_open = false;

    return !is_hidden(session, tag) && sam_server_is_open(session->server, (uint16_t)tag, &is_open) == SAM_OK && is_open;
}

int64_t watch_is_due_in(const struct session *session)
{
    int64_t left = session->watched_at + PERIOD - now();

    if (!session->is_named || session->line < 0 || session->has_ended)
        return -1;
    return left > 0 ? left : 0;
}

void watch_files(struct session *session)
{
    size_t tags = watch_is_due_in(session) == 0 ? count_tags(session) : 0;
    int error;

    for (size_t tag = 1; tag < tags; tag++) {
        char *path = is_watched(session, tag) ? path_of(session, (uint16_t)tag, &error) : NULL;
        if (path != NULL)
            look_at(session, (uint16_t)tag, path);
        free(path);
    }
    if (tags > 0)
        session->watched_at = now();
}

/* ---- Reading a file anew ---- */

/* Adds what stands at a path as a file of its own. */
static int add_anew(struct session *session, uint16_t tag, const char *end, const struct text *text, uint16_t *anew)
{
    struct document document = {.purpose = READ_ANEW};
    char *name = formatted(NAME_READ_ANEW "%u", (unsigned)tag);
    uint32_t code = SAM_NO_MEMORY;

    if (name != NULL && remember_content(&document, end, content_of(text)) == 0)
        code = add_to_server(session, name, text, anew);
    if (code == SAM_OK)
        session->documents[*anew] = document;
    else
        free_document(&document);
    free(name);
    return error_of_status(code);
}

/* Reads a file anew. */
static int read_anew(struct session *session, uint16_t tag, uint16_t *anew)
{
    struct text text = {0};
    char *end = NULL;
    int error = 0;
    char *path = path_of(session, tag, &error);

    if (error == 0)
        error = end_of_links(path, &end);
    if (error == 0)
        error = access(end, F_OK) != 0 ? errno : read_whole(end, &text);
    if (error == 0)
        error = add_anew(session, tag, end, &text, anew);
    free(text.bytes);
    free(end);
    free(path);
    return error;
}

bool reload_file(struct session *session, uint32_t request, uint16_t tag)
{
    uint16_t anew = 0;
    int error = is_tag(session, tag) ? read_anew(session, tag, &anew) : NO_FILE;

    if (error == ENOMEM)
        return false;
    if (error != 0)
        return refuse(session, request, error);
    record_document(session, anew);
    return put_message(session, &(struct event){.kind = SAM_NOTE_ANEW, .request = request, .number = anew}, NULL);
}

bool accept_reload(struct session *session, uint16_t tag, uint64_t anew)
{
    const struct known *known = is_tag(session, tag) && is_tag(session, anew) ? session->documents[anew].known : NULL;

    if (known == NULL)
        return true;
    if (take_text(session, tag) != 0 || !is_same(content_of(&session->text), known->content))
        return true; /* something else stands there: its next write asks */
    if (remember_content(&session->documents[tag], known->path, known->content) != 0)
        return false;
    session->documents[tag].is_reloaded = true;
    record_document(session, tag);
    return true;
}
