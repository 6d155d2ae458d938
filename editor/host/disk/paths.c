/* paths.c: names of files, and what stands in them. */
#define _XOPEN_SOURCE 700
#include <errno.h>
#include <fcntl.h>
#include <inttypes.h>
#include <stdarg.h>
#include <stdio.h>
#include <stdlib.h>
#include <string.h>
#include <sys/stat.h>
#include <unistd.h>

#include "disk/paths.h"
#include "disk/errors.h"

enum {
    MOST_LINKS = 40,  /* symbolic links that are followed */
    LINK_ROOM = 4096, /* bytes of a path that a link has */
    HASH_ROOM = 18    /* bytes of a dash, a hash in hexadecimal digits, and the zero after it */
};

/* FNV-1a of 64 bits. It has to show that a file has changed, not to withstand an attack. */
#define HASH_START UINT64_C(0xcbf29ce484222325)
#define HASH_FACTOR UINT64_C(0x100000001b3)

/* ---- Names ---- */

char *formatted(const char *format, ...)
{
    va_list words;
    va_start(words, format);
    int len = vsnprintf(NULL, 0, format, words);
    va_end(words);
    char *line = len < 0 ? NULL : malloc((size_t)len + 1);
    if (line != NULL) {
        va_start(words, format);
        vsnprintf(line, (size_t)len + 1, format, words);
        va_end(words);
    }
    return line;
}

const char *last_of(const char *path)
{
    const char *slash = strrchr(path, '/');

    return slash == NULL ? path : slash + 1;
}

char *folder_of(const char *path)
{
    return formatted("%.*s", (int)(last_of(path) - path), path);
}

int open_folder(const char *path)
{
    char *folder = folder_of(path);
    int file = folder == NULL ? -1 : open(*folder == '\0' ? "." : folder, O_RDONLY | O_DIRECTORY | O_CLOEXEC);

    free(folder);
    return file;
}

int stat_folder(const char *path, struct stat *status)
{
    char *folder = folder_of(path);
    int error = folder == NULL ? ENOMEM : stat(*folder == '\0' ? "." : folder, status) != 0 ? errno : 0;

    free(folder);
    return error;
}

dev_t disk_of_folder(const char *path)
{
    struct stat status;

    return stat_folder(path, &status) == 0 ? status.st_dev : 0;
}

bool is_unnamed(const char *name, size_t len)
{
    size_t front = strlen(UNNAMED);

    return len > front && strncmp(name, UNNAMED, front) == 0 && strspn(name + front, "0123456789") >= len - front;
}

/* The length of a path without OF_NO_FILE. */
static size_t bare_len(const char *path)
{
    size_t len = strlen(path);

    return len > 0 && *last_of(path) == '\0' ? len - 1 : len;
}

char *bare_path(const char *path)
{
    return formatted("%.*s", (int)bare_len(path), path);
}

void base_of(const char *path, char base[BASE_ROOM])
{
    const char *path_end = path + bare_len(path), *last = path_end;
    bool is_file = *path_end == '\0';
    char end[HASH_ROOM] = "";

    while (last > path && last[-1] != '/')
        last--;
    size_t len = (size_t)(path_end - last);
    if (len >= BASE_ROOM || (is_file && (strcmp(last, CUT) == 0 || is_unnamed(last, len)))) {
        snprintf(end, sizeof end, "-%016" PRIx64, hash_of(last));
        len = len < BASE_ROOM ? len : BASE_ROOM - sizeof end;
        while (len > 0 && ((unsigned char)last[len] & 0xC0) == 0x80)
            len--;
    }
    snprintf(base, BASE_ROOM, "%.*s%s", (int)len, last, end);
}

int end_of_links(const char *path, char **end)
{
    char target[LINK_ROOM];
    char *at = formatted("%s", path);

    for (int links = 0; at != NULL && links <= MOST_LINKS; links++) {
        ssize_t len = readlink(at, target, sizeof target - 1);
        if (len < 0 && (errno == EINVAL || errno == ENOENT || errno == ENOTDIR)) { /* it is no link, or not there */
            *end = at;
            return 0;
        }
        if (len < 0) {
            int error = errno;
            free(at);
            return error;
        }
        target[len] = '\0';
        char *folder = target[0] == '/' ? formatted("") : folder_of(at);
        char *next = folder == NULL ? NULL : formatted("%s%s", folder, target);
        free(folder);
        free(at);
        at = next;
    }
    if (at == NULL)
        return ENOMEM;
    free(at);
    return ELOOP;
}

/* ---- Contents ---- */

static void add_bytes(struct content *content, const uint8_t *bytes, size_t len)
{
    for (size_t at = 0; at < len; at++)
        content->hash = (content->hash ^ bytes[at]) * HASH_FACTOR;
    content->len += len;
}

struct content content_of(const struct text *text)
{
    struct content content = {.kind = READ, .hash = HASH_START};

    add_bytes(&content, text->bytes, text->len);
    return content;
}

uint64_t hash_of(const char *words)
{
    return content_of(&(struct text){(uint8_t *)words, strlen(words)}).hash;
}

struct content marks_of(const struct stat *status)
{
    const uint64_t marks[] = {
        (uint64_t)status->st_dev,          (uint64_t)status->st_ino,          (uint64_t)status->st_size,
        (uint64_t)status->st_ctim.tv_sec,  (uint64_t)status->st_ctim.tv_nsec, (uint64_t)status->st_mtim.tv_sec,
        (uint64_t)status->st_mtim.tv_nsec,
    };
    struct content content = {.kind = NOT_READ, .hash = HASH_START};

    add_bytes(&content, (const uint8_t *)marks, sizeof marks);
    return content;
}

struct content content_at(const char *path)
{
    uint8_t piece[PIECE];
    struct content content = {.kind = READ, .hash = HASH_START};
    struct stat status;
    ssize_t count = -1;

    if (stat(path, &status) != 0)
        return (struct content){.kind = errno == ENOENT || errno == ENOTDIR ? NOT_THERE : NOT_READ};
    int file = S_ISREG(status.st_mode) ? open(path, O_RDONLY | O_NONBLOCK | O_CLOEXEC) : -1;
    while (file >= 0 && content.len <= MOST_BYTES && (count = read(file, piece, sizeof piece)) > 0)
        add_bytes(&content, piece, (size_t)count);
    close_file(&file);
    return count == 0 ? content : marks_of(&status);
}

bool is_same(struct content one, struct content other)
{
    return one.kind == other.kind && one.hash == other.hash && one.len == other.len;
}

int read_all(int file, struct text *text)
{
    ssize_t count = 1;

    *text = (struct text){.bytes = malloc(MOST_BYTES + 1)};
    if (text->bytes == NULL)
        return ENOMEM;
    while (text->len <= MOST_BYTES && (count = read(file, text->bytes + text->len, MOST_BYTES + 1 - text->len)) > 0)
        text->len += (size_t)count;
    int error = count < 0 ? errno : count > 0 ? TEXT_TOO_LONG : 0;
    if (error != 0) {
        free(text->bytes);
        *text = (struct text){0};
    }
    return error;
}

bool sync_file(const char *path)
{
    int file = open(path, O_RDONLY | O_NONBLOCK | O_CLOEXEC);
    bool is_synced = file >= 0 && fsync(file) == 0;

    close_file(&file);
    return is_synced;
}

void close_file(int *file)
{
    if (*file >= 0)
        close(*file);
    *file = -1;
}
