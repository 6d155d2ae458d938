/* session_directory.c: the folders of sessions that stay: one for each, with its socket, its lock and its journal.
 *
 * They lie in the user's own folder. Nobody else may read or write them, whatever the umask; one that is a symbolic link, another user's or
 * open to others is refused. The lock is held by the samhost that lives, as long as it lives.
 */
#define _GNU_SOURCE
#include <dirent.h>
#include <errno.h>
#include <fcntl.h>
#include <stdio.h>
#include <stdlib.h>
#include <string.h>
#include <sys/file.h>
#include <sys/socket.h>
#include <sys/stat.h>
#include <sys/time.h>
#include <sys/un.h>
#include <unistd.h>

#include "session/session_directory.h"
#include "disk/fallback_directories.h"
#include "disk/paths.h"

enum { MOST_WAITING = 16 }; /* connections that wait to be accepted */

#define SOCKET "socket"
#define LOCK "lock"

bool is_home_name(const char *word)
{
    return strlen(word) == NAME_DIGITS && strspn(word, "0123456789abcdef") == NAME_DIGITS;
}

/* ---- Folders ---- */

/* Opens a folder that is the user's alone. */
static int open_alone(int above, const char *name, int *folder)
{
    struct stat status;

    *folder = openat(above, name, O_RDONLY | O_DIRECTORY | O_NOFOLLOW | O_CLOEXEC);
    if (*folder < 0)
        return errno == ENOTDIR || errno == ELOOP ? EPERM : errno;
    if (fstat(*folder, &status) == 0 && status.st_uid == geteuid() && (status.st_mode & 0777) == 0700)
        return 0;
    close_file(folder);
    return EPERM;
}

/* Opens the folder in which all of them lie. */
static int open_all(bool makes, int *folder)
{
    char *path;
    int error = own_folder(0, makes, &path);

    *folder = -1;
    if (error == 0)
        error = open_alone(AT_FDCWD, path, folder);
    free(path);
    return error;
}

int open_home(const char *name, bool makes, struct home *home)
{
    mode_t mask = umask(077);
    int all, error = open_all(makes, &all);

    *home = (struct home){.all = all, .folder = -1, .lock = -1};
    snprintf(home->name, sizeof home->name, "%s", name);
    if (error == 0 && makes && mkdirat(all, name, 0700) != 0 && errno != EEXIST)
        error = errno;
    if (error == 0)
        error = open_alone(all, name, &home->folder);
    umask(mask);
    if (error != 0)
        close_home(home);
    return error;
}

void close_home(struct home *home)
{
    close_file(&home->all);
    close_file(&home->folder);
    close_file(&home->lock);
}

int sync_home(const struct home *home)
{
    int error = fsync(home->folder) == 0 && fsync(home->all) == 0 ? 0 : errno;

    return error == EINVAL || error == ENOTSUP ? 0 : error; /* not every kind of file system can */
}

int rename_home(struct home *home, const char name[NAME_DIGITS + 1])
{
    if (renameat(home->all, home->name, home->all, name) != 0)
        return errno;
    memcpy(home->name, name, NAME_DIGITS + 1);
    return 0;
}

void remove_home(struct home *home)
{
    const char *const names[] = {UNFINISHED_JOURNAL, JOURNAL, NEW_JOURNAL, SOCKET, BEFORE, ABOUT, LOCK};
    char *wrong = find_wrong_journal(home);
    size_t count = sizeof names / sizeof names[0] - (wrong != NULL ? 2 : 0); /* that is listed still */
    bool is_ours = has_lock(home);

    for (size_t at = 0; is_ours && at < count; at++)
        (void)unlinkat(home->folder, names[at], 0);
    if (is_ours && wrong == NULL)
        (void)unlinkat(home->all, home->name, AT_REMOVEDIR);
    free(wrong);
}

int make_in_home(const struct home *home, const char *name, int flags, int *file)
{
    mode_t mask = umask(077);

    *file = openat(home->folder, name, flags | O_CREAT | O_NOFOLLOW | O_CLOEXEC, 0600);
    umask(mask);
    return *file < 0 ? errno : 0;
}

/* ---- Wrong journals ---- */

static bool is_there(const struct home *home, const char *name)
{
    return faccessat(home->folder, name, F_OK, AT_SYMLINK_NOFOLLOW) == 0;
}

/* The path of a file in the folder, in memory of the caller's; NULL where memory is out. */
static char *path_in(const struct home *home, const char *name)
{
    char *state = NULL;
    bool is_known = own_folder(0, false, &state) == 0;
    char *path = is_known ? formatted("%s%s/%s", state, home->name, name) : formatted("%s/%s", home->name, name);

    free(state);
    return path;
}

int keep_wrong_journal(const struct home *home, char **path)
{
    *path = path_in(home, WRONG_JOURNAL);
    if (is_there(home, WRONG_JOURNAL))
        return EEXIST;
    if (renameat(home->folder, JOURNAL, home->folder, WRONG_JOURNAL) != 0 &&
        (errno != ENOENT || renameat(home->folder, UNFINISHED_JOURNAL, home->folder, WRONG_JOURNAL) != 0))
        return errno;
    (void)fsync(home->folder);
    return 0;
}

char *find_wrong_journal(const struct home *home)
{
    return is_there(home, WRONG_JOURNAL) ? path_in(home, WRONG_JOURNAL) : NULL;
}

/* ---- The lock ---- */

bool is_in_home(const struct home *home, const char *name, int file)
{
    struct stat own, there;

    return fstat(file, &own) == 0 && fstatat(home->folder, name, &there, AT_SYMLINK_NOFOLLOW) == 0 && own.st_ino == there.st_ino &&
           own.st_dev == there.st_dev;
}

bool has_lock(const struct home *home)
{
    return is_in_home(home, LOCK, home->lock);
}

int lock_home(struct home *home)
{
    int error = make_in_home(home, LOCK, O_RDWR, &home->lock);

    if (error != 0)
        return error;
    if (flock(home->lock, LOCK_EX | LOCK_NB) != 0)
        error = errno;
    else if (!has_lock(home)) /* a session that ended has removed it */
        error = ENOENT;
    if (error != 0)
        close_file(&home->lock);
    return error;
}

int renew_home(struct home *home)
{
    struct home new;
    int error = open_home(home->name, true, &new);

    if (error == 0)
        error = lock_home(&new);
    close_home(error == 0 ? home : &new);
    if (error == 0)
        *home = new;
    return error;
}

void write_owner(const struct home *home)
{
    if (ftruncate(home->lock, 0) == 0 && lseek(home->lock, 0, SEEK_SET) == 0)
        (void)dprintf(home->lock, "%ld\n", (long)getpid()); /* it is for people to read */
}

/* ---- The socket ---- */

/* The address of the socket, by the folder that is open, so that it is short, and is that folder's whatever was put into its place. */
static struct sockaddr_un address_of(const struct home *home)
{
    struct sockaddr_un address = {.sun_family = AF_UNIX};

    snprintf(address.sun_path, sizeof address.sun_path, "/proc/self/fd/%d/" SOCKET, home->folder);
    return address;
}

int bind_home(const struct home *home, int *listener)
{
    struct sockaddr_un address = address_of(home);
    mode_t mask = umask(0177);
    int error = 0;

    (void)unlinkat(home->folder, SOCKET, 0); /* one that was killed has left it */
    *listener = socket(AF_UNIX, SOCK_STREAM | SOCK_CLOEXEC | SOCK_NONBLOCK, 0);
    if (*listener < 0 || bind(*listener, (struct sockaddr *)&address, sizeof address) != 0)
        error = errno;
    umask(mask);
    if (error != 0)
        close_file(listener);
    return error;
}

int listen_at(int listener)
{
    return listen(listener, MOST_WAITING) == 0 ? 0 : errno;
}

bool has_socket(const struct home *home)
{
    return is_there(home, SOCKET);
}

bool is_ours(int socket)
{
    struct ucred other;
    socklen_t len = sizeof other;

    return getsockopt(socket, SOL_SOCKET, SO_PEERCRED, &other, &len) == 0 && other.uid == geteuid();
}

int connect_home(const struct home *home, int64_t longest, int *line)
{
    struct sockaddr_un address = address_of(home);
    const struct timeval limit = {longest / 1000, longest % 1000 * 1000};
    int error = 0;

    *line = socket(AF_UNIX, SOCK_STREAM | SOCK_CLOEXEC, 0);
    if (*line < 0 || setsockopt(*line, SOL_SOCKET, SO_SNDTIMEO, &limit, sizeof limit) != 0 ||
        connect(*line, (struct sockaddr *)&address, sizeof address) != 0)
        error = errno;
    else if (!is_ours(*line))
        error = EPERM;
    if (error != 0)
        close_file(line);
    return error;
}

/* ---- All of them ---- */

int each_home(int (*visit)(struct home *home, void *at), void *at)
{
    int all, error = open_all(false, &all);
    DIR *entries = error == 0 ? fdopendir(all) : NULL;

    if (error == 0 && entries == NULL) {
        error = errno;
        close(all);
    }
    for (struct dirent *entry; error == 0 && (entry = readdir(entries)) != NULL;) {
        struct home home;
        if (!is_home_name(entry->d_name) || open_home(entry->d_name, false, &home) != 0)
            continue;
        error = visit(&home, at);
        close_home(&home);
    }
    if (entries != NULL)
        closedir(entries);
    return error == ENOENT ? 0 : error;
}

/* ---- Names that sessions had ---- */

/* A name that is looked for; how the folder of the session is named now that had it, empty until it is found; and whether the session has
 * that name now, or was about to. */
struct search {
    const char *name;
    char *heir;
    bool is_last;
};

void write_names(const struct home *home, const char before[NAME_DIGITS + 1], const char after[NAME_DIGITS + 1])
{
    int file;

    if (make_in_home(home, BEFORE, O_WRONLY | O_APPEND, &file) != 0)
        return; /* an older terminal is then told that there is no session */
    (void)dprintf(file, "%s\n%s\n", before, after);
    (void)fsync(file);
    close(file);
}

static int look_before(struct home *home, void *at)
{
    struct search *search = at;
    char line[NAME_DIGITS + 1];
    int file = openat(home->folder, BEFORE, O_RDONLY | O_NOFOLLOW | O_CLOEXEC);
    bool is_found = false, is_last = false;

    while (file >= 0 && read(file, line, sizeof line) == sizeof line) {
        is_last = memcmp(line, search->name, NAME_DIGITS) == 0;
        is_found |= is_last;
    }
    close_file(&file);
    if (is_found) {
        memcpy(search->heir, home->name, NAME_DIGITS + 1);
        search->is_last = is_last;
    }
    return 0;
}

bool find_heir(const char *name, char heir[NAME_DIGITS + 1])
{
    struct search search = {name, heir, false};

    *heir = '\0';
    return each_home(look_before, &search) == 0 && *heir != '\0';
}

int open_named(const char *name, struct home *home)
{
    char heir[NAME_DIGITS + 1] = "";
    struct search search = {name, heir, false};
    int error = open_home(name, false, home);

    if (error != ENOENT || each_home(look_before, &search) != 0 || *heir == '\0' || !search.is_last)
        return error;
    return open_home(heir, false, home);
}
