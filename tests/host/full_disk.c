/*
 * Loaded before samhost, this is a disk that is full while there is a file of the path FULL: it takes no text (pwrite), and of a journal
 * (writev) nothing from the first piece on that has the words of that file; where that has none, nothing at all.
 */
#define _GNU_SOURCE
#include <errno.h>
#include <fcntl.h>
#include <stdbool.h>
#include <stdlib.h>
#include <string.h>
#include <sys/syscall.h>
#include <sys/uio.h>
#include <unistd.h>

enum { ROOM = 256 };

/* The words of the file: how many bytes they have, or -1 where there is no file. */
static ssize_t read_words(char words[ROOM])
{
    const char *path = getenv("FULL");
    int before = errno, file = path == NULL ? -1 : open(path, O_RDONLY | O_CLOEXEC);
    ssize_t len = file < 0 ? -1 : read(file, words, ROOM);

    if (file >= 0)
        close(file);
    errno = before;
    return len;
}

ssize_t pwrite(int file, const void *bytes, size_t len, off_t at)
{
    char words[ROOM];

    if (read_words(words) < 0)
        return syscall(SYS_pwrite64, file, bytes, len, at);
    errno = ENOSPC;
    return -1;
}

ssize_t writev(int file, const struct iovec *parts, int count)
{
    static bool have_come;
    char words[ROOM];
    ssize_t len = read_words(words);

    have_come &= len >= 0;
    for (int at = 0; at < count && len >= 0; at++)
        have_come |= parts[at].iov_len > 0 && memmem(parts[at].iov_base, parts[at].iov_len, words, (size_t)len) != NULL;
    if (!have_come)
        return syscall(SYS_writev, file, parts, count);
    errno = ENOSPC;
    return -1;
}
