/* fallback_directories.c: folders for what can't stand beside its file: the user's own, so that no other user reads or names what is
 * there.
 */
#define _XOPEN_SOURCE 700
#include <errno.h>
#include <inttypes.h>
#include <stdlib.h>
#include <string.h>
#include <sys/stat.h>
#include <unistd.h>

#include "disk/fallback_directories.h"
#include "disk/paths.h"

#define NAME "sulgrevad"

/* A variable of the environment that names a folder by its whole path; NULL where it doesn't. */
static const char *named(const char *variable)
{
    const char *value = getenv(variable);

    return value != NULL && *value == '/' ? value : NULL;
}

/* The path of a folder, without a slash at its end: for the user's state, else in one for temporary files, where its name has the user's
 * number. ENOENT where there is no such folder. */
static int path_of_own(int which, char **path)
{
    const char *state = named("XDG_STATE_HOME"), *home = named("HOME"), *temporary = named("TMPDIR");

    *path = NULL;
    if (which == 0 && state != NULL)
        *path = formatted("%s/" NAME, state);
    else if (which == 0 && home != NULL)
        *path = formatted("%s/.local/state/" NAME, home);
    else if (which == 1 && temporary != NULL)
        *path = formatted("%s/" NAME "-%lu", temporary, (unsigned long)geteuid());
    else if (which == 2)
        *path = formatted("/tmp/" NAME "-%lu", (unsigned long)geteuid());
    else
        return ENOENT;
    return *path == NULL ? ENOMEM : 0;
}

char *state_path(void)
{
    char *path = NULL;

    (void)path_of_own(0, &path);
    return path;
}

/* Makes a folder that isn't there, for the user alone, and has the disk keep its name. */
static int make_folder(const char *path)
{
    int error = mkdir(path, 0700) == 0 ? 0 : errno;
    int above = error == 0 ? open_folder(path) : -1;

    (void)!fsync(above);
    close_file(&above);
    return error == EEXIST ? 0 : error;
}

/* Makes a folder, and those above it that are not there. Returns why the first of them can't be made; one that is mounted as it is entered
 * says so, too. */
static int make_folders(char *path)
{
    int error = 0;

    for (char *slash = strchr(path + 1, '/'); slash != NULL; slash = strchr(slash + 1, '/')) {
        *slash = '\0';
        int why = make_folder(path);
        error = error != 0 ? error : why;
        *slash = '/';
    }
    int why = make_folder(path);
    return error != 0 ? error : why;
}

/* Whether a folder is the user's own, and nobody else's to read or to write. */
static int check_own(const char *path)
{
    struct stat status;

    if (lstat(path, &status) != 0)
        return errno;
    if (!S_ISDIR(status.st_mode) || status.st_uid != geteuid())
        return EPERM;
    return (status.st_mode & 077) != 0 && chmod(path, 0700) != 0 ? errno : 0;
}

int own_folder(int which, bool makes, char **folder)
{
    char *path = NULL;
    int error = path_of_own(which, &path);

    *folder = NULL;
    if (error == 0) {
        int why = makes ? make_folders(path) : 0;
        error = check_own(path);
        error = error == ENOENT && why != 0 ? why : error;
    }
    if (error == 0) {
        *folder = formatted("%s/", path);
        error = *folder == NULL ? ENOMEM : 0;
    }
    free(path);
    return error;
}

/* The whole path of a file, in memory of its own; also of one whose folder isn't there. Where the process's own folder is gone its path
 * counts as if it began at the root. NULL where memory is out. */
static char *whole_path(const char *path)
{
    char *folder = folder_of(path), *whole = NULL, *own = NULL;
    const char *rest = last_of(path);

    errno = ENOMEM;
    if (folder != NULL)
        whole = realpath(*folder == '\0' ? "." : folder, NULL);
    if (whole == NULL && errno != ENOMEM) {
        rest = *path == '/' ? path + 1 : path;
        whole = *path == '/' ? formatted("") : realpath(".", NULL);
    }
    if (whole == NULL && errno != ENOMEM)
        whole = formatted("");
    if (whole != NULL)
        own = formatted("%s/%s", whole, rest);
    free(whole);
    free(folder);
    return own;
}

char *own_front(const char *path)
{
    char base[BASE_ROOM];
    char *bare = bare_path(path), *whole = bare == NULL ? NULL : whole_path(bare);

    free(bare);
    if (whole == NULL)
        return NULL;
    uint64_t hash = hash_of(whole);
    free(whole);
    base_of(path, base);
    return formatted("%016" PRIx64 "-%s", hash, base);
}
