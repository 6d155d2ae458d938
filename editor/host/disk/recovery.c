/* recovery.c: reports what earlier sessions left, and offers the texts that they saved to the terminal.
 *
 * A text is offered as one more file of the session. Its name has the tag of the file that it is of, or 0 for what was cut last; whether it
 * is newer than that file (`+`) or not (`-`); and when it was saved.
 */
#define _XOPEN_SOURCE 700
#include <dirent.h>
#include <errno.h>
#include <stdlib.h>
#include <string.h>
#include <sys/stat.h>
#include <unistd.h>

#include "disk/recovery.h"
#include "disk/errors.h"
#include "disk/fallback_directories.h"
#include "disk/file_reader.h"
#include "disk/folder_reader.h"
#include "disk/saves.h"
#include "session/session.h"

enum {
    TIME_ROOM = 32,   /* bytes of a time in words */
    MOST_OFFERED = 50 /* texts that are offered */
};

/* What is looked for, and what came of it. */
struct search {
    struct session *session;
    size_t first, tags;   /* of the user's files: that of the first one, and the one behind the last */
    struct marks folders; /* those that were looked through */
    bool offers;          /* the texts become files of the session */
    bool is_late;         /* it is of a file that has joined a session which had begun */
    int offered;          /* how many */
    int foreign;          /* copies that are another user's */
    char *first_foreign;  /* the path of the first of them */
    bool is_short;        /* something was not looked at, since memory is out */
};

/* A folder that is looked through. */
struct folder {
    const char *path; /* with the slash at its end; "" for the folder in which the program runs */
    dev_t device;
    ino_t inode;
    bool is_own; /* it is for copies that can't stand beside their files */
};

/* A copy of a text, when it was saved, and whether that was when its file was written last, or after it. */
struct left {
    char *path;
    struct stat status;
    char when[TIME_ROOM];
    bool is_newer;
    bool is_read;
    struct text text;
};

/* ---- Whose it is ---- */

/* Whether a name is a file's name, a suffix, and perhaps a number. Hands out the length of the file's name. */
static bool has_suffix(const char *entry, const char *suffix, size_t *len)
{
    const char *at = NULL;

    for (const char *next = strstr(entry, suffix); next != NULL; next = strstr(next + 1, suffix))
        at = next;
    if (at == NULL || at == entry)
        return false;
    *len = (size_t)(at - entry);
    at += strlen(suffix);
    if (*at == '.')
        at += 1 + strspn(at + 1, "0123456789");
    return *at == '\0';
}

static bool lies_in(struct search *search, const char *path, const struct folder *folder)
{
    struct stat status;
    int error = stat_folder(path, &status);

    search->is_short |= error == ENOMEM;
    return error == 0 && status.st_dev == folder->device && status.st_ino == folder->inode;
}

/* Whether the front of an entry's name is what names of a file's copies begin with: beside it, or in a folder for copies. Hands out the
 * folder as the file names it, in memory of the caller's. */
static bool is_copy_of(struct search *search, const char *path, const struct folder *folder, const char *entry, size_t len, char **place)
{
    char base[BASE_ROOM];
    char *front = folder->is_own ? own_front(path) : NULL;

    base_of(path, base);
    search->is_short |= folder->is_own && front == NULL;
    bool is_own = front != NULL && strlen(front) == len && strncmp(front, entry, len) == 0;
    bool is_beside = strlen(base) == len && strncmp(base, entry, len) == 0 && lies_in(search, path, folder);
    free(front);
    *place = !is_own && !is_beside ? NULL : is_beside ? folder_of(path) : formatted("%s", folder->path);
    search->is_short |= (is_own || is_beside) && *place == NULL;
    return *place != NULL;
}

/* ---- Copies ---- */

static void free_left(struct left *left)
{
    free(left->path);
    free(left->text.bytes);
}

/* Adds a text that was saved to the host, as a file that the terminal may open, and drops by writing it empty. */
static void offer(struct search *search, size_t tag, const struct left *left)
{
    struct session *session = search->session;
    const struct text *text = &left->text;
    uint16_t own = 0;
    char *path = formatted("%s", left->path);
    char *name = formatted(NAME_LEFT_OVER " %u %c %s", (unsigned)tag, left->is_newer ? '+' : '-', left->when);

    search->is_short |= path == NULL || name == NULL;
    if (left->is_read && path != NULL && name != NULL && search->offered < MOST_OFFERED &&
        add_to_server(session, name, text, &own) == SAM_OK) {
        search->offered++;
        session->documents[own] = (struct document){.path = path, .shown = name, .purpose = LEFT_OVER};
        (void)remember_content(&session->documents[own], path, content_of(text)); /* where memory is out it can't be dropped */
        path = name = NULL;
    }
    free(path);
    free(name);
}

/* Whether a copy is the user's own. Those that root makes of files of others are given to these. */
static bool is_users(const struct stat *copy, const char *of)
{
    struct stat file;

    return copy->st_uid == geteuid() || (geteuid() == 0 && of != NULL && stat(of, &file) == 0 && file.st_uid == copy->st_uid);
}

/* Reads what is to be known of a copy. Returns whether it is a file of the user's. */
static bool look_at(struct search *search, const char *place, const char *entry, const char *of, struct left *left)
{
    struct stat file;

    left->path = formatted("%s%s", place, entry);
    search->is_short |= left->path == NULL;
    if (left->path == NULL || lstat(left->path, &left->status) != 0 || !S_ISREG(left->status.st_mode))
        return false;
    if (is_users(&left->status, of))
        left->is_read = read_unlinked(left->path, &left->text, &left->status) == 0;
    if (!is_users(&left->status, of)) { /* as it is, or as it was opened */
        if (search->foreign++ == 0)
            search->first_foreign = formatted("%s", left->path);
        return false;
    }
    const struct timespec *saved = &left->status.st_mtim, *written = &file.st_mtim;
    left->is_newer = of == NULL || stat(of, &file) != 0 || saved->tv_sec > written->tv_sec ||
                     (saved->tv_sec == written->tv_sec && saved->tv_nsec >= written->tv_nsec);
    struct tm time;
    if (localtime_r(&saved->tv_sec, &time) == NULL || strftime(left->when, sizeof left->when, "%Y-%m-%d %H:%M:%S", &time) == 0)
        left->when[0] = '\0';
    return true;
}

/* What is told of a copy. */
static struct event earlier_text(enum sam_note_code code, size_t tag, const char *path, const struct left *left)
{
    return (struct event){
        .kind = SAM_NOTE_EARLIER,
        .code = code,
        .tag = (uint16_t)tag,
        .number = (uint64_t)left->status.st_mtim.tv_sec,
        .path = path,
        .copy = left->path,
    };
}

/* Tells of a text that was not written, and offers it. One that its file has already is of no use any more. */
static void report_saved(struct search *search, size_t tag, const char *path, const struct left *left)
{
    struct event event = earlier_text(left->is_newer ? SAM_NOTE_NEWER : SAM_NOTE_OLDER, tag, path, left);
    bool is_written = left->is_read && is_same(content_of(&left->text), content_at(path)) && sync_file(path);

    if (is_copy_at(search->session, left->path) || (is_written && left->status.st_uid == geteuid() && unlink(left->path) == 0))
        return;
    if (search->is_late) /* a message of its own says to a terminal that the text is offered */
        event = (struct event){.kind = SAM_NOTE_SAID};
    tell(&event, "%s has a text that was not written: it is in %s, of %s, %s than the file", path, left->path, left->when,
         left->is_newer ? "newer" : "older");
    if (search->offers)
        offer(search, tag, left);
}

/* Reports a copy where it is one of a file of the session, as it is named or as its symbolic links name it: a text that was not written, or
 * what the file was before a write that may have been broken off. */
static void report_copy(struct search *search, const struct folder *folder, const char *entry, size_t len, bool is_old)
{
    for (size_t tag = search->first; tag < search->tags; tag++) {
        const struct document *document = &search->session->documents[tag];
        const char *path = document->path;
        struct left left = {0};
        char *place = NULL;
        bool is_its_own =
            is_copy_of(search, path, folder, entry, len, &place) || is_copy_of(search, document->known->path, folder, entry, len, &place);
        bool is_seen = is_its_own && look_at(search, place, entry, path, &left);
        struct event event = earlier_text(SAM_NOTE_BROKEN, tag, path, &left);
        if (is_seen && is_old)
            tell(&event, "%s may be broken: what it was before a write is in %s", path, left.path);
        else if (is_seen)
            report_saved(search, tag, path, &left);
        free_left(&left);
        free(place);
    }
}

/* Reports a text that is of no file: one without a name, or what was cut last. */
static void report_other(struct search *search, const struct folder *folder, const char *entry, size_t len)
{
    struct left left = {0};
    size_t front = folder->is_own && len > 16 && strcspn(entry, "-") == 16 ? 17 : 0; /* a number of the path, and a dash */
    bool is_cut = len - front == strlen(CUT) && strncmp(entry + front, CUT, strlen(CUT)) == 0;

    if ((is_cut || is_unnamed(entry + front, len - front)) && look_at(search, folder->path, entry, NULL, &left)) {
        struct event event = earlier_text(is_cut ? SAM_NOTE_CUT : SAM_NOTE_UNNAMED, 0, NULL, &left);
        if (is_cut)
            tell(&event, "what was cut last in an earlier session is in %s, of %s", left.path, left.when);
        else
            tell(&event, "a file without a name was not written: its text is in %s", left.path);
        if (is_cut && search->offers)
            offer(search, 0, &left);
    }
    free_left(&left);
}

/* Whether what is in a folder under a name is another user's. */
static bool is_foreign(struct search *search, const struct folder *folder, const char *entry)
{
    struct stat status;
    char *path = formatted("%s%s", folder->path, entry);
    bool is_foreign = path == NULL || lstat(path, &status) != 0 || status.st_uid != geteuid();

    search->is_short |= path == NULL;
    free(path);
    return is_foreign;
}

static void report_entry(struct search *search, const struct folder *folder, const char *entry)
{
    size_t len;
    bool is_temporary = strncmp(entry, TEMPORARY, strlen(TEMPORARY)) == 0;
    bool is_saved = has_suffix(entry, SAVED, &len), is_old = !is_saved && has_suffix(entry, OLD, &len);

    if (is_saved || is_old)
        report_copy(search, folder, entry, len, is_old);
    if (search->is_late || (!is_temporary && !is_saved) || is_foreign(search, folder, entry))
        return;
    if (is_temporary)
        say("%s%s is left of a write that was broken off", folder->path, entry);
    else
        report_other(search, folder, entry, len);
}

/* ---- Folders ---- */

/* Looks through a folder, if it is there, unless that was done. The path is in memory that this frees; NULL where memory is out. */
static void report_folder(struct search *search, char *path, bool is_own)
{
    struct stat status;
    const char *name = path == NULL || *path != '\0' ? path : ".";
    bool is_there = name != NULL && stat(name, &status) == 0;
    struct identity identity = is_there ? identity_of(&status) : (struct identity){0};
    bool is_new = is_there && !has_mark(&search->folders, &identity);
    DIR *entries = is_new ? opendir(name) : NULL;

    search->is_short |= path == NULL;
    if (is_new && entries == NULL)
        say("%s can't be looked through for what is left of earlier sessions: %s", name, cause(errno));
    if (is_new)
        (void)add_mark(&search->folders, &identity); /* where memory is out, it may be reported twice */
    if (entries != NULL) {
        struct folder folder = {path, status.st_dev, status.st_ino, is_own};
        for (struct dirent *entry = readdir(entries); entry != NULL; entry = readdir(entries))
            report_entry(search, &folder, entry->d_name);
        closedir(entries);
    }
    free(path);
}

/* The folders for copies come first: where one of the files lies there, another one's copies may lie there, too. */
static void report_folders(struct search *search)
{
    for (int which = 0; which < OWN_FOLDERS; which++) {
        char *own;
        int error = own_folder(which, false, &own);
        if (error == 0 || error == ENOMEM)
            report_folder(search, own, true);
    }
    for (size_t tag = search->first; tag < search->tags; tag++) {
        report_folder(search, folder_of(search->session->documents[tag].path), false);
        report_folder(search, folder_of(search->session->documents[tag].known->path), false);
    }
    if (!search->is_late)
        report_folder(search, formatted(""), false);
    if (search->foreign > 0)
        say("copies of other users are not offered: %s%s", search->first_foreign == NULL ? "one" : search->first_foreign,
            search->foreign > 1 ? " and more" : "");
    free(search->first_foreign);
    if (search->is_short)
        say("out of memory: not all that is left of earlier sessions was looked for");
    free(search->folders.items);
}

void report_left(struct session *session, bool offers)
{
    report_folders(&(struct search){.session = session, .first = 1, .tags = count_tags(session), .offers = offers});
}

void report_left_of(struct session *session, uint16_t tag)
{
    report_folders(&(struct search){.session = session, .first = tag, .tags = (size_t)tag + 1, .is_late = true});
}
