/* file_writer.c: puts a text into a file.
 *
 * As a rule a new file takes the place of the old one, so that a crash never leaves half a file. Where that can't be, or would take
 * something from the file (its other names, its owner, its access list), it is written in place. What it was is kept in a file of its
 * own meanwhile.
 */
#define _GNU_SOURCE
#include <errno.h>
#include <fcntl.h>
#include <poll.h>
#include <stdio.h>
#include <stdlib.h>
#include <string.h>
#include <sys/file.h>
#include <sys/stat.h>
#include <sys/xattr.h>
#include <unistd.h>

#include "disk/file_writer.h"
#include "disk/errors.h"
#include "disk/fallback_directories.h"
#include "disk/file_reader.h"

enum {
    MOST_KEPT = 1000,      /* names that are tried for a copy */
    MOST_TRIES = 200,      /* attempts to lock a folder that another host of the user has locked */
    TRIES_OF_OTHERS = 20,  /* those where it is another user who has */
    PAUSE = 10,            /* milliseconds between two of them */
    LOCK_ROOM = 256,       /* bytes of a line of the system's list of locks */
    ATTRIBUTES_ROOM = 4096 /* bytes of the names of a file's attributes */
};

#define ACCESS_LIST "system.posix_acl_access"
#define OF_THE_SYSTEM "security." /* what names of attributes begin with that the system gives to a new file by itself */

/* ---- Access ---- */

/* Whether a file has attributes that a new file would not have, an access list among them. */
static bool has_attributes(const char *path)
{
    char names[ATTRIBUTES_ROOM];
    ssize_t len = listxattr(path, names, sizeof names);

    for (const char *name = names; len > 0 && name < names + len; name += strlen(name) + 1) {
        if (strncmp(name, OF_THE_SYSTEM, strlen(OF_THE_SYSTEM)) != 0)
            return true;
    }
    return len < 0 && errno == ERANGE;
}

/* Takes from a new file the access list that its folder gave it. Returns whether it has none. */
static bool drop_access_list(int file)
{
    return fremovexattr(file, ACCESS_LIST) == 0 || errno == ENODATA || errno == ENOTSUP;
}

/* Gives a new file the owner, the group and the mode of the one in whose place it comes. EPERM where the system doesn't allow it. */
static int take_access(int file, const struct stat *old)
{
    struct stat new;

    if (!drop_access_list(file))
        return EPERM;
    if (fstat(file, &new) != 0)
        return errno;
    if ((new.st_uid != old->st_uid || new.st_gid != old->st_gid) && fchown(file, old->st_uid, old->st_gid) != 0)
        return EPERM;
    if (fchmod(file, old->st_mode & 07777) != 0 || fstat(file, &new) != 0)
        return errno;
    return new.st_mode == old->st_mode ? 0 : EPERM;
}

/* Gives a copy of a file the owner, the group and the mode of the file, as far as the system allows it, and nobody more than the file
 * does. What only the file's group may do is not for a group that takes its place. Where the file has an access list, or isn't there, the
 * copy is its owner's alone. */
static int take_part_of_access(int file, const char *like)
{
    struct stat old, new;

    if (like == NULL || stat(like, &old) != 0 || fstat(file, &new) != 0)
        return 0;
    bool has_group = old.st_gid == new.st_gid || fchown(file, (uid_t)-1, old.st_gid) == 0;
    int taken = old.st_uid == new.st_uid ? 0 : fchown(file, old.st_uid, (gid_t)-1);
    (void)taken; /* where its owner stays another, nobody has more of it */
    mode_t mode = old.st_mode & 0777;
    if (!drop_access_list(file) || has_attributes(like))
        mode &= 0700;
    else if (!has_group)
        mode &= 0707 | ((mode & 07) << 3);
    return fchmod(file, mode) == 0 ? 0 : errno;
}

/* ---- New files ---- */

/* Has a file have just a text. */
static int fill(int file, const struct text *text)
{
    for (size_t at = 0; at < text->len;) {
        ssize_t count = pwrite(file, text->bytes + at, text->len - at, (off_t)at);
        if (count <= 0)
            return count < 0 ? errno : EIO;
        at += (size_t)count;
    }
    return ftruncate(file, (off_t)text->len) == 0 ? 0 : errno;
}

/* Waits until the disk has a file that was written, unless something went wrong before. */
static int sync_written(int file, int error)
{
    return error == 0 && fsync(file) != 0 ? errno : error;
}

/* Has the disk keep the name of a path, which an open file has got; where its folder can't be opened, by all of that file's disk. Not every
 * kind of file system can. One that says it is read only by now has met a fault, and may have lost the name. */
static int sync_folder(const char *path, int file)
{
    int folder = open_folder(path);
    int error = (folder >= 0 ? fsync(folder) : syncfs(file)) == 0 ? 0 : errno;

    close_file(&folder);
    return error == EINVAL || error == ENOTSUP ? 0 : error;
}

/* Locks an open folder, unless another host has it locked. Not every kind of file system can. */
static bool is_locked_elsewhere(int file)
{
    return flock(file, LOCK_EX | LOCK_NB) != 0 && errno == EWOULDBLOCK;
}

/* Whether a process of the user's has an open folder locked, as the system's list of locks says. */
static bool is_locked_by_own(int file)
{
    FILE *locks = fopen("/proc/locks", "re");
    char line[LOCK_ROOM];
    struct stat folder, process;
    bool is_own = false;

    while (locks != NULL && fstat(file, &folder) == 0 && !is_own && fgets(line, sizeof line, locks) != NULL) {
        char path[LOCK_ROOM];
        long number;
        unsigned long long inode;
        if (sscanf(line, "%*d: FLOCK %*s %*s %ld %*x:%*x:%llu", &number, &inode) != 2 || inode != folder.st_ino)
            continue;
        snprintf(path, sizeof path, "/proc/%ld", number);
        is_own = stat(path, &process) == 0 && process.st_uid == geteuid();
    }
    if (locks != NULL)
        fclose(locks);
    return is_own;
}

/* Opens and locks the folder of a path, so that no other host changes a file there between this one's look at it and its write. Where that
 * takes long it goes without: soon where another user has it locked, who may do so for ever. */
static int lock_folder(const char *path)
{
    int file = open_folder(path);

    for (int tries = 0; file >= 0 && tries < MOST_TRIES && is_locked_elsewhere(file); tries++) {
        if (tries >= TRIES_OF_OTHERS && !is_locked_by_own(file))
            break;
        (void)poll(NULL, 0, PAUSE);
    }
    return file;
}

/* Makes a file beside a path, for what is to take that path when it is whole. */
static int make_temporary(const char *path, char **temporary, int *file)
{
    char *folder = folder_of(path);

    *temporary = folder == NULL ? NULL : formatted("%s" TEMPORARY "XXXXXX", folder);
    *file = *temporary == NULL ? -1 : mkstemp(*temporary);
    int error = *temporary == NULL ? ENOMEM : *file < 0 ? errno : 0;
    if (error != 0) {
        free(*temporary);
        *temporary = NULL;
    }
    free(folder);
    return error;
}

/* Closes a file that the disk has, if it is open, and removes what could not take its place. */
static void drop_temporary(char *temporary, int file, bool is_placed)
{
    close_file(&file);
    if (temporary != NULL && !is_placed)
        unlink(temporary);
    free(temporary);
}

/* ---- Copies ---- */

/* Moves a file to a name that nobody has. */
static int move_to_free(const char *path, const char *name)
{
    if (link(path, name) == 0) {
        unlink(path);
        return 0;
    }
    if (errno == EEXIST)
        return EEXIST;
    /* Not every kind of file system has links. There an empty file takes the name before. */
    int file = open(name, O_WRONLY | O_CREAT | O_EXCL | O_CLOEXEC, 0600);
    if (file < 0)
        return errno;
    close(file);
    if (rename(path, name) == 0)
        return 0;
    int error = errno;
    unlink(name);
    return error;
}

/* Gives a file a name that nobody has, by a move or a link: 0, or the number of the error. */
typedef int give_name(const char *path, const char *name);

/* Gives a file the first of NAME, NAME.2 and so on that nobody has, and hands out which, in memory of the caller's. */
static int give_first(give_name *give, const char *path, const char *name, char **found)
{
    for (int at = 1; at <= MOST_KEPT; at++) {
        *found = at == 1 ? formatted("%s", name) : formatted("%s.%d", name, at);
        int error = *found == NULL ? ENOMEM : give(path, *found);
        if (error == 0)
            return 0;
        free(*found);
        *found = NULL;
        if (error != EEXIST)
            return error;
    }
    return EEXIST;
}

/* Makes a file of a text beside a path, which it is to take, and marks it as a copy. Hands out where it is, and leaves it open. */
static int make_copy(const struct text *text, const char *path, const char *like, struct copy *copy, char **temporary, int *file)
{
    struct stat made;
    int error = make_temporary(path, temporary, file);

    if (error != 0)
        return error;
    error = fill(*file, text);
    if (error == 0)
        error = take_part_of_access(*file, like);
    if (error == 0 && fstat(*file, &made) != 0)
        error = errno;
    error = sync_written(*file, error);
    if (error == 0) {
        copy->device = made.st_dev;
        copy->inode = made.st_ino;
        copy->written = made.st_mtim;
        copy->content = content_of(text);
    }
    return error;
}

/* Puts a text into a new file whose name begins with a path and a suffix. */
static int keep_as(const struct text *text, const char *front, const char *suffix, const char *like, struct copy *copy)
{
    char *name = formatted("%s%s", front, suffix), *temporary = NULL;
    int file = -1, error = name == NULL ? ENOMEM : make_copy(text, front, like, copy, &temporary, &file);

    if (error == 0)
        error = give_first(move_to_free, temporary, name, &copy->path);
    bool is_placed = error == 0;
    if (is_placed)
        error = sync_folder(copy->path, file);
    if (is_placed && error != 0) { /* a power cut may take it, so it is made elsewhere */
        unlink(copy->path);
        free(copy->path);
        copy->path = NULL;
    }
    drop_temporary(temporary, file, is_placed);
    free(name);
    return error;
}

/* What the path of a copy begins with: beside its file, as the first place, else in a folder of the user's own. */
static int front_at(int which, const char *name, char **front)
{
    char base[BASE_ROOM];
    char *folder = NULL, *bare = bare_path(name);
    int error = 0;

    base_of(name, base);
    if (which > 0)
        error = own_folder(which - 1, true, &folder);
    else if (bare != NULL)
        folder = folder_of(bare);
    char *last = which > 0 ? own_front(name) : formatted("%s", base);
    *front = folder == NULL || last == NULL ? NULL : formatted("%s%s", folder, last);
    free(last);
    free(folder);
    free(bare);
    return error != 0 ? error : *front == NULL ? ENOMEM : 0;
}

int keep(const struct text *text, const char *name, const char *like, const char *suffix, struct copy *copy)
{
    bool is_short = false;
    int error = 0;

    *copy = (struct copy){.is_unnoted = true};
    for (int which = 0; which <= OWN_FOLDERS; which++) {
        char *front;
        int found = front_at(which, name, &front);
        int kept = found != 0 ? found : keep_as(text, front, suffix, which == 0 ? like : NULL, copy);
        free(front);
        copy->is_temporary = which > 1;
        if (kept == 0)
            return 0;
        is_short |= kept == ENOMEM;
        if (found == 0)
            error = kept; /* that there is no such folder says nothing */
    }
    return is_short ? ENOMEM : error; /* where memory is out that place may do later */
}

bool is_named_after(const struct copy *copy, const char *name)
{
    bool is_named = strcmp(copy->path, name) == 0; /* the file is its own copy */

    for (int which = 0; !is_named && which <= OWN_FOLDERS; which++) {
        char *front;
        size_t len = front_at(which, name, &front) == 0 ? strlen(front) : 0;
        is_named = len > 0 && strncmp(copy->path, front, len) == 0 && strncmp(copy->path + len, SAVED, strlen(SAVED)) == 0;
        free(front);
    }
    return is_named;
}

int keep_again(const struct text *text, struct copy *copy)
{
    struct copy new = {.path = copy->path, .is_temporary = copy->is_temporary, .is_unnoted = true};
    char *temporary = NULL;
    int file = -1, error = make_copy(text, copy->path, copy->path, &new, &temporary, &file);

    if (error == 0 && rename(temporary, copy->path) != 0)
        error = errno;
    bool is_placed = error == 0;
    if (is_placed) {
        *copy = new;
        error = sync_folder(copy->path, file);
        if (error != 0) /* which text the disk has is not known, so it is saved once more */
            copy->content.kind = NOT_SURE;
    }
    drop_temporary(temporary, file, is_placed);
    return error;
}

/* ---- Files ---- */

/* Whether a file may be replaced: it has what is known, or what the host has put there, though the disk may lack it, or what it is to have;
 * or it could not be read as that was told, and is the very same file. One that is gone may come again, unless its disk is gone, too: then
 * what stands in its folder is hidden as soon as that disk is back. */
static bool may_replace(struct request *request, struct content found)
{
    struct content known = request->known;
    struct stat now;

    request->found = found;
    if (found.kind == NOT_THERE)
        return request->disk == 0 || disk_of_folder(request->path) == request->disk;
    if (known.kind == NOT_READ && stat(request->path, &now) == 0 && is_same(marks_of(&now), known))
        return true;
    known.kind = known.kind == NOT_SURE ? READ : known.kind;
    return is_same(found, known) || is_same(found, content_of(request->text));
}

/* Gives a file another name. */
static int link_to(const char *path, const char *name)
{
    return link(path, name) == 0 ? 0 : errno;
}

/* Before a new file takes the place of another program's: has that stay beside it, by another name or, where no link can be, by a copy. */
static int keep_theirs(struct request *request)
{
    struct text text = {0};
    struct copy copy = {0};
    char *name;

    if (!request->is_theirs || request->found.kind == NOT_THERE || is_same(request->found, content_of(request->text)))
        return 0;
    name = formatted("%s" THEIRS, request->path);
    int error = name == NULL ? ENOMEM : give_first(link_to, request->path, name, &request->theirs);
    free(name);
    if (error == 0 || error == ENOMEM)
        return error;
    error = read_whole(request->path, &text);
    if (error == 0)
        error = keep(&text, request->path, request->path, THEIRS, &copy);
    free(text.bytes);
    request->theirs = copy.path;
    return error;
}

/* Where nothing took its place, it has one name again. */
static void drop_theirs(struct request *request)
{
    if (request->theirs != NULL)
        unlink(request->theirs);
    free(request->theirs);
    request->theirs = NULL;
}

/* Puts a new file in the place of the old one, or where none is (`old` is NULL). */
static int put_new(struct request *request, const struct stat *old)
{
    char *temporary = NULL;
    bool is_placed = false;
    int file, error = make_temporary(request->path, &temporary, &file);

    if (error == 0) {
        error = fill(file, request->text); /* before its mode is set: a write takes some of it */
        if (error == 0)
            error = old != NULL ? take_access(file, old) : fchmod(file, request->mode) != 0 ? errno : 0;
        error = sync_written(file, error);
    }
    if (error == 0) {
        int folder = lock_folder(request->path);
        error = may_replace(request, content_at(request->path)) ? keep_theirs(request) : IS_CHANGED;
        if (error == 0 && rename(temporary, request->path) != 0)
            error = errno;
        if (error != 0)
            drop_theirs(request);
        close_file(&folder);
        is_placed = error == 0;
    }
    if (is_placed)
        error = sync_folder(request->path, file);
    request->is_unsure = is_placed && error != 0;
    drop_temporary(temporary, file, is_placed);
    return error;
}

/* Has an open file have another text, and its mode, and waits until the disk has it. */
static int fill_again(int file, const struct text *text)
{
    struct stat before, after;

    if (fstat(file, &before) != 0)
        return errno;
    int error = fill(file, text);
    if (error == 0 && fstat(file, &after) == 0 && after.st_mode != before.st_mode)
        fchmod(file, before.st_mode & 07777); /* where that may not be, nobody gets more by it */
    return sync_written(file, error);
}

/* Whether a path still leads to an open file. */
static bool is_at(int file, const char *path)
{
    struct stat own, there;

    return fstat(file, &own) == 0 && stat(path, &there) == 0 && own.st_dev == there.st_dev && own.st_ino == there.st_ino;
}

/* Writes into an open file, which has `old`, unless that has changed by now. Where the write fails, the file gets `old` back; where that
 * fails, too, `old` stays where it is kept. */
static int write_over(struct request *request, int file, const struct text *old)
{
    struct copy kept;
    bool is_theirs = request->is_theirs && !is_same(content_of(old), content_of(request->text));
    int error = keep(old, request->path, request->path, is_theirs ? THEIRS : OLD, &kept);

    if (error != 0)
        return error;
    int folder = lock_folder(request->path);
    request->found = content_at(request->path);
    if (!is_same(request->found, kept.content) || !is_at(file, request->path))
        error = IS_CHANGED;
    else
        error = fill_again(file, request->text);
    if (error != 0 && error != IS_CHANGED && fill_again(file, old) != 0)
        request->old = kept.path;
    close_file(&folder);
    request->is_unsure = request->old != NULL;
    if (request->is_unsure)
        return error;
    if (is_theirs && error == 0) {
        request->theirs = kept.path;
        return 0;
    }
    unlink(kept.path);
    free(kept.path);
    return error;
}

/* Opens a file to be written in place; not another one that has come there since it was looked at, nor what a link leads to. */
static int open_in_place(struct request *request, const struct stat *old, int *file)
{
    struct stat now;

    *file = open(request->path, O_RDWR | O_NONBLOCK | O_NOCTTY | O_NOFOLLOW | O_CLOEXEC);
    if (*file < 0 && errno != ELOOP && errno != ENXIO)
        return errno;
    if (*file >= 0 && fstat(*file, &now) == 0 && S_ISREG(now.st_mode) && now.st_dev == old->st_dev && now.st_ino == old->st_ino)
        return 0;
    request->found = content_at(request->path);
    return IS_CHANGED;
}

static int put_in_place(struct request *request, const struct stat *seen)
{
    struct text old = {0};
    int file, error = open_in_place(request, seen, &file);

    if (error == 0)
        error = read_all(file, &old);
    if (error == 0)
        error = may_replace(request, content_of(&old)) ? write_over(request, file, &old) : IS_CHANGED;
    if (file >= 0 && close(file) != 0 && error == 0)
        error = errno;
    free(old.bytes);
    return error;
}

/* Whether an error means that no new file can take the place of one, while that one may yet be written. */
static bool is_of_the_place(int error)
{
    return error == EACCES || error == EPERM || error == EROFS || error == EBUSY || error == EXDEV || error == ENAMETOOLONG;
}

int put_file(struct request *request)
{
    struct stat old;

    if (stat(request->path, &old) != 0)
        return errno == ENOENT ? put_new(request, NULL) : errno;
    if (!S_ISREG(old.st_mode))
        return S_ISDIR(old.st_mode) ? EISDIR : NOT_REGULAR;
    if (access(request->path, W_OK) != 0)
        return errno;
    if (old.st_nlink > 1 || has_attributes(request->path))
        return put_in_place(request, &old);
    int error = put_new(request, &old);
    return !request->is_unsure && is_of_the_place(error) ? put_in_place(request, &old) : error;
}
