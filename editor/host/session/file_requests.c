/* file_requests.c: does what messages of the terminal ask: adds files to a session that has begun, finds names that complete a path.
 *
 * All memory is taken before the host gets a file, so nothing is half done where memory is out: then the message is done again later.
 */
#define _XOPEN_SOURCE 700
#include <dirent.h>
#include <errno.h>
#include <stdlib.h>
#include <string.h>

#include "session/file_requests.h"
#include "disk/errors.h"
#include "disk/file_reader.h"
#include "disk/recovery.h"
#include "disk/saves.h"
#include "journal/journal_records.h"
#include "session/session.h"

enum {
    MOST_NAMES = 200,                           /* names that complete a path */
    NAMES_ROOM = SAM_LINK_MOST_NOTE - NAME_ROOM /* bytes of them, in a message that has other fields, too */
};

/* ---- Files ---- */

/* The tag of a file that the session has already; 0 where it has none. */
static uint16_t find_file(struct session *session, const struct identity *wanted)
{
    uint16_t found = 0;

    for (size_t tag = 1, tags = count_tags(session); tag < tags && found == 0; tag++) {
        struct identity identity;
        int error;
        char *path = is_hidden(session, tag) || !has_file(session, tag) ? NULL : path_of(session, (uint16_t)tag, &error);
        if (path != NULL && identify(path, &identity) == 0 && is_one_file(&identity, wanted))
            found = (uint16_t)tag;
        free(path);
    }
    return found;
}

static int add_joined(struct session *session, const char *path, uint16_t *tag)
{
    struct text text;
    int error = read_whole(path, &text);

    if (error == 0)
        error = add_text(session, path, &text, tag);
    free(text.bytes);
    if (error == 0) {
        record_document(session, *tag);
        report_left_of(session, *tag);
    }
    return error;
}

int join_file(struct session *session, const char *path, uint16_t *tag)
{
    struct identity identity;
    int error = *path == '\0' ? ENOENT : identify(path, &identity);

    if (error != 0)
        return error == ENOENT ? NO_FOLDER : error;
    *tag = find_file(session, &identity);
    return *tag != 0 ? 0 : add_joined(session, path, tag);
}

bool refuse(struct session *session, uint32_t request, int error)
{
    return put_message(session, &(struct event){.kind = SAM_NOTE_REFUSED, .request = request, .code = code_of(error)}, cause(error));
}

static bool open_file(struct session *session, uint32_t request, const char *path)
{
    uint16_t tag = 0;
    int error = is_folder(path) ? EISDIR : join_file(session, path, &tag);

    if (error == ENOMEM)
        return false;
    if (error != 0)
        return refuse(session, request, error);
    return put_message(session, &(struct event){.kind = SAM_NOTE_OPENED, .request = request, .tag = tag}, NULL);
}

/* ---- Names ---- */

/* Whether an entry completes the last part of a path. A hidden one does where that begins with a dot. */
static bool completes(const char *entry, const char *part, size_t len)
{
    bool is_special = strcmp(entry, ".") == 0 || strcmp(entry, "..") == 0 || strchr(entry, '\n') != NULL;

    return !is_special && strncmp(entry, part, len) == 0 && (entry[0] != '.' || len > 0);
}

/* Adds a name behind others, if there is room. */
static bool add_name(char names[NAMES_ROOM], const char *folder, const char *entry)
{
    char *path = formatted("%s%s", folder, entry);
    const char *end = path != NULL && is_folder(path) ? "/\n" : "\n";
    bool has_room = path != NULL && strlen(names) + strlen(entry) + strlen(end) < NAMES_ROOM;

    free(path);
    if (has_room) {
        strcat(names, entry);
        strcat(names, end);
    }
    return has_room;
}

static bool find_names(struct session *session, uint32_t request, const char *path)
{
    char names[NAMES_ROOM] = "";
    const char *part = last_of(path);
    char *folder = folder_of(path);
    struct dirent **entries = NULL;
    int taken = 0, count = folder == NULL ? 0 : scandir(*folder == '\0' ? "." : folder, &entries, NULL, alphasort);
    bool has_more = false;

    for (int at = 0; at < count; at++) {
        if (!has_more && completes(entries[at]->d_name, part, strlen(part))) {
            has_more = taken == MOST_NAMES || !add_name(names, folder, entries[at]->d_name);
            taken += !has_more;
        }
        free(entries[at]);
    }
    free(entries);
    bool is_short = folder == NULL || (count < 0 && errno == ENOMEM);
    free(folder);
    enum sam_note_code code = has_more ? SAM_NOTE_HAS_MORE : SAM_NOTE_NO_CODE;
    return !is_short &&
           put_message(session, &(struct event){.kind = SAM_NOTE_NAMES, .request = request, .code = code, .path = names}, NULL);
}

/* ---- Messages ---- */

static bool want_write(struct session *session, uint16_t tag, uint32_t request)
{
    bool is_wanted = is_tag(session, tag);

    if (is_wanted && !expect_write(&session->documents[tag], request))
        return false;
    if (is_wanted)
        record_document(session, tag);
    return true;
}

bool do_message(struct session *session, const uint8_t *bytes, size_t len)
{
    struct sam_note note;
    char path[SAM_LINK_MOST_NOTE];

    if (sam_note_read(bytes, len, &note) != SAM_OK)
        return true; /* it is of a later version, or wrong */
    memcpy(path, bytes + note.path_at, note.path_len);
    path[note.path_len] = '\0';
    enter_folder(session);
    switch (note.kind) {
    case SAM_NOTE_OPEN:
        return open_file(session, note.request, path);
    case SAM_NOTE_COMPLETE:
        return find_names(session, note.request, path);
    case SAM_NOTE_RELOAD:
        return reload_file(session, note.request, note.tag);
    case SAM_NOTE_RELOADED:
        return accept_reload(session, note.tag, note.number);
    case SAM_NOTE_WRITE:
        return want_write(session, note.tag, note.request);
    default:
        return true; /* the host's own */
    }
}
