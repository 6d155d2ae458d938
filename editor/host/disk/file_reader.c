/* file_reader.c: reads files: those of the words at the start, and others that are asked for later. */
#define _XOPEN_SOURCE 700
#include <errno.h>
#include <fcntl.h>
#include <inttypes.h>
#include <stdio.h>
#include <stdlib.h>
#include <string.h>
#include <sys/stat.h>
#include <unistd.h>

#include "disk/file_reader.h"
#include "disk/errors.h"
#include "disk/folder_reader.h"
#include "disk/saves.h"
#include "session/session.h"

/* ---- Reading files ---- */

/* Reads the file that stands at a path. It is looked at before it is opened, since to open a device may do something; and again after
 * that. */
static int read_regular(const char *path, int flags, struct text *text, struct stat *status)
{
    struct stat now;

    *text = (struct text){0};
    if (((flags & O_NOFOLLOW) != 0 ? lstat(path, status) : stat(path, status)) != 0)
        return errno;
    if (!S_ISREG(status->st_mode))
        return S_ISDIR(status->st_mode) ? EISDIR : NOT_REGULAR;
    int file = open(path, O_RDONLY | O_NONBLOCK | O_NOCTTY | O_CLOEXEC | flags), error = file < 0 || fstat(file, &now) != 0 ? errno : 0;
    if (error == 0 && !S_ISREG(now.st_mode))
        error = NOT_REGULAR;
    if (error == 0)
        error = read_all(file, text);
    *status = error == 0 ? now : *status;
    close_file(&file);
    return error;
}

int read_whole(const char *path, struct text *text)
{
    struct stat status;
    int error = read_regular(path, 0, text, &status);

    return error == ENOENT ? 0 : error;
}

int read_unlinked(const char *path, struct text *text, struct stat *status)
{
    return read_regular(path, O_NOFOLLOW, text, status);
}

char *shown_name(const char *path)
{
    size_t runes = 0;
    const char *at = path + strlen(path);

    for (const char *byte = path; *byte != '\0'; byte++)
        runes += ((unsigned char)*byte & 0xC0) != 0x80;
    if (runes <= MOST_IN_NAME)
        return formatted("%s", path);
    for (runes = 0; runes < MOST_IN_NAME - 1; runes += ((unsigned char)*at & 0xC0) != 0x80)
        at--;
    return formatted("\xE2\x80\xA6%s", at); /* U+2026, three dots */
}

int add_text(struct session *session, const char *path, const struct text *text, uint16_t *tag)
{
    struct document document = {.path = formatted("%s", path)};
    struct content content = access(path, F_OK) == 0 ? content_of(text) : (struct content){.kind = NOT_THERE};
    char *end = NULL;
    int error = document.path == NULL ? ENOMEM : *last_of(path) == '\0' ? NO_NAME : end_of_links(document.path, &end);

    if (error == 0)
        document.shown = shown_name(document.path);
    if (error == 0)
        error = document.shown == NULL ? ENOMEM : remember_content(&document, end, content);
    if (error == 0) /* from here on nothing takes memory */
        error = error_of_status(add_to_server(session, document.shown, text, tag));
    if (error == 0)
        session->documents[*tag] = document;
    else
        free_document(&document);
    free(end);
    return error;
}

/* Reads one file into the host. Returns the exit status. */
static int add_file(struct session *session, const char *path)
{
    struct text text;
    uint16_t tag;
    int error = read_whole(path, &text);

    if (error == 0)
        error = add_text(session, path, &text, &tag);
    free(text.bytes);
    if (error == 0) {
        if (access(path, F_OK) == 0 && access(path, W_OK) != 0)
            say("%s can only be read: %s", path, cause(errno));
        return STATUS_OK;
    }
    say("%s: %s", path, cause(error));
    return error == ENOMEM ? STATUS_MEMORY : STATUS_UNREADABLE;
}

/* ---- Two names of one file ---- */

struct identity identity_of(const struct stat *status)
{
    return (struct identity){.device = status->st_dev, .inode = status->st_ino};
}

int identify(const char *path, struct identity *identity)
{
    struct stat status;
    char *end = NULL;
    int error = end_of_links(path, &end);

    bool is_there = error == 0 && stat(end, &status) == 0;
    if (error == 0 && !is_there)
        error = stat_folder(end, &status);
    *identity = error == 0 ? identity_of(&status) : (struct identity){0};
    if (error == 0 && !is_there)
        identity->name = hash_of(last_of(end));
    free(end);
    return error;
}

void spell_identity(const struct identity *identity, char words[IDENTITY_ROOM])
{
    snprintf(words, IDENTITY_ROOM, " %" PRIx64 ":%" PRIx64 ":%" PRIx64 " ", (uint64_t)identity->device, (uint64_t)identity->inode,
             identity->name);
}

bool is_one_file(const struct identity *one, const struct identity *other)
{
    return one->device == other->device && one->inode == other->inode && one->name == other->name;
}

bool is_folder(const char *path)
{
    struct stat status;

    return stat(path, &status) == 0 && S_ISDIR(status.st_mode);
}

/* Notes which files the words name, so that no folder offers one of them again. A word that names the file of one before it is NULL then. */
static int mark_words(char **paths, int count, struct marks *marks)
{
    struct identity identity;

    for (int at = 0; at < count; at++) {
        int error = identify(paths[at], &identity); /* a path of which nothing is found will fail when it is read or written */
        if (error == 0 && has_mark(marks, &identity)) {
            say("%s: it stands twice among the words", paths[at]);
            paths[at] = NULL;
        } else if (error == 0)
            error = add_mark(marks, &identity);
        if (error == ENOMEM)
            return ENOMEM;
    }
    return 0;
}

/* What can't be read is left out, and said. */
int add_files(struct session *session, char **paths, int count)
{
    struct marks marks = {0};
    int status = STATUS_OK, added = 0;

    if (mark_words(paths, count, &marks) != 0) {
        say("out of memory");
        status = STATUS_MEMORY;
    }
    for (int at = 0; status != STATUS_MEMORY && at < count; at++) {
        if (paths[at] == NULL)
            continue;
        status = is_folder(paths[at]) ? add_folder(session, paths[at], &marks) : add_file(session, paths[at]);
        added += status == STATUS_OK;
    }
    free(marks.items);
    return status == STATUS_MEMORY || added == 0 ? status : STATUS_OK;
}

void tell_times(struct session *session)
{
    size_t tags = count_tags(session);
    struct stat status;

    for (size_t tag = 1; tag < tags; tag++) {
        const char *path = session->documents[tag].path;
        if (stat(path, &status) == 0)
            tell(&(struct event){.kind = SAM_NOTE_DATED, .tag = (uint16_t)tag, .number = (uint64_t)status.st_mtim.tv_sec, .path = path},
                 "");
    }
}
