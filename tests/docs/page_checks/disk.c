/*
 * Loaded before a program, this is a disk that takes a few bytes of each write, and notes in the file of the path NOTED what is safe on it
 * and which names change: "sync PATH", "rename OLD NEW".
 */
#define _GNU_SOURCE
#include <fcntl.h>
#include <limits.h>
#include <stdio.h>
#include <stdlib.h>
#include <sys/stat.h>
#include <sys/syscall.h>
#include <unistd.h>

enum { MOST = 5 };

static void note(const char *what, const char *first, const char *second)
{
    const char *path = getenv("NOTED");
    int file = path == NULL ? -1 : open(path, O_WRONLY | O_APPEND | O_CREAT | O_CLOEXEC, 0600);
    if (file < 0)
        return;
    dprintf(file, "%s %s%s%s\n", what, first, *second ? " " : "", second);
    close(file);
}

static int sync_by(long call, int file)
{
    char link[64], path[PATH_MAX];
    snprintf(link, sizeof link, "/proc/self/fd/%d", file);
    ssize_t len = readlink(link, path, sizeof path - 1);
    int status = (int)syscall(call, file);
    if (status == 0 && len >= 0) {
        path[len] = '\0';
        note("sync", path, "");
    }
    return status;
}

int fsync(int file)
{
    return sync_by(SYS_fsync, file);
}

int fdatasync(int file)
{
    return sync_by(SYS_fdatasync, file);
}

int rename(const char *old, const char *new)
{
    int status = (int)syscall(SYS_rename, old, new);
    if (status == 0)
        note("rename", old, new);
    return status;
}

ssize_t write(int file, const void *bytes, size_t len)
{
    struct stat entry;
    if (len > MOST && fstat(file, &entry) == 0 && S_ISREG(entry.st_mode))
        len = MOST;
    return syscall(SYS_write, file, bytes, len);
}
