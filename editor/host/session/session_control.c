/* session_control.c: lists the sessions that stay, ends one, and has one show a file. */
#define _GNU_SOURCE
#include <errno.h>
#include <fcntl.h>
#include <poll.h>
#include <stdio.h>
#include <stdlib.h>
#include <string.h>
#include <sys/socket.h>
#include <sys/stat.h>
#include <unistd.h>

#include "session/session_control.h"
#include "disk/errors.h"
#include "disk/file_reader.h"
#include "log.h"
#include "net/event_loop.h"
#include "session/daemon.h"
#include "session/session.h"

enum {
    LONGEST_ANSWER = 5000, /* milliseconds that an answer is waited for */
    LONGEST_LIST = 2000,   /* milliseconds that those of all sessions together are, for the list */
    LONGEST_LOOK = 1000,   /* milliseconds that they are before a session begins */
    LEAST_ANSWER = 100,    /* milliseconds that each of them is, however late it is */
    LONGEST_END = 90000,   /* milliseconds that the end of a session is waited for */
    NAP = 50,              /* milliseconds between two looks */
    SPAN_ROOM = 32
};

/* ---- What is kept for the list ---- */

void write_about(const struct session *session)
{
    const struct home *home = &session->home;
    const char *first = NULL, *folder = session->folder == NULL ? "?" : session->folder;
    int count = 0, file, error = make_in_home(home, ABOUT, O_WRONLY | O_TRUNC, &file);

    for (size_t tag = 1; tag < ALL_TAGS && session->documents[tag].path != NULL && !is_hidden(session, tag); tag++, count++)
        first = count == 0 ? session->documents[tag].path : first;
    if (error == 0 && count > 1)
        (void)dprintf(file, "%s and %d more, in %s", first, count - 1, folder); /* it is for people to read */
    else if (error == 0)
        (void)dprintf(file, "%s, in %s", first == NULL ? "no files" : first, folder);
    close_file(&file);
}

/* ---- Asking ---- */

/* Asks the samhost of a session, and hands out the first line of its answer, which ends in NUL, and the connection, the caller's; -1 where
 * there is none. It waits for that for so many milliseconds. */
static int ask(const struct home *home, const char *words, size_t len, int64_t longest, char answer[ANSWER_ROOM], int *line)
{
    uint8_t head[QUESTION_HEAD];
    size_t has = 0;
    ssize_t count = 1;
    int64_t until = now() + longest, left;
    int error = connect_home(home, longest, line);

    answer[0] = '\0';
    if (error != 0)
        return error;
    memcpy(head, QUESTION_MARK, QUESTION_MARK_LEN);
    head[QUESTION_HEAD - 2] = (uint8_t)(len >> 8);
    head[QUESTION_HEAD - 1] = (uint8_t)len;
    if (send(*line, head, sizeof head, MSG_NOSIGNAL) < 0 || send(*line, words, len, MSG_NOSIGNAL) < 0)
        error = errno;
    while (error == 0 && count > 0 && has < ANSWER_ROOM - 1 && (has == 0 || answer[has - 1] != '\n') && (left = until - now()) > 0) {
        struct pollfd end = {*line, POLLIN, 0};
        count = poll(&end, 1, (int)left) > 0 ? read(*line, answer + has, 1) : 0; /* what comes after the line is for later */
        has += count > 0 ? (size_t)count : 0;
    }
    answer[has] = '\0';
    return error == 0 && (has == 0 || answer[has - 1] != '\n') ? ETIMEDOUT : error;
}

/* How a session is: for how many seconds it has run, for how many no terminal was there (-1: one is), and how many files are not
 * written. */
struct state {
    long long seconds, alone_for;
    int unsaved;
};

static int ask_state(const struct home *home, int64_t longest, struct state *state)
{
    char answer[ANSWER_ROOM];
    int line, error = ask(home, "list", sizeof "list", longest, answer, &line);

    close_file(&line);
    if (error == 0 && sscanf(answer, "%lld %lld %d", &state->seconds, &state->alone_for, &state->unsaved) != 3)
        error = EPROTO;
    return error;
}

/* For how many milliseconds one of many sessions is waited for, where all are until a time. */
static int64_t time_left(const int64_t *until)
{
    int64_t left = *until - now();

    return left > LEAST_ANSWER ? left : LEAST_ANSWER;
}

/* ---- The list ---- */

/* A span of time in words. */
static void spell_span(int64_t seconds, char words[SPAN_ROOM])
{
    if (seconds < 120)
        snprintf(words, SPAN_ROOM, "%lld s", (long long)seconds);
    else if (seconds < 7200)
        snprintf(words, SPAN_ROOM, "%lld min", (long long)(seconds / 60));
    else
        snprintf(words, SPAN_ROOM, "%lld h", (long long)(seconds / 3600));
}

/* Reads what a session is about. */
static void read_about(const struct home *home, char about[ANSWER_ROOM])
{
    int file = openat(home->folder, ABOUT, O_RDONLY | O_NOFOLLOW | O_NONBLOCK | O_CLOEXEC);
    ssize_t count = file < 0 ? 0 : read(file, about, ANSWER_ROOM - 1);

    about[count > 0 ? count : 0] = '\0';
    close_file(&file);
    make_printable(about);
}

/* Lists a session whose samhost does not answer. One that has just ended is not there any more. */
static void list_silent(struct home *home, const char *about)
{
    char *wrong = find_wrong_journal(home);
    int error = lock_home(home);
    bool is_wrong = error != EWOULDBLOCK && !has_journal(home) && wrong != NULL;
    const char *state = error == EWOULDBLOCK      ? "its samhost has not answered in time"
                        : has_whole_journal(home) ? "its samhost is gone, and another can begin from its journal"
                        : has_journal(home)       ? "its samhost is gone, and --end saves what its journal has"
                        : is_wrong                ? "its journal is wrong, and kept in "
                                                  : "its samhost is gone, and there is no journal";

    if (is_wrong)
        make_printable(wrong);
    if (is_wrong || error == 0 || error == EWOULDBLOCK || has_journal(home))
        printf("%s  %s%s  %s\n", home->name, state, is_wrong ? wrong : "", about);
    free(wrong);
}

static int list_one(struct home *home, void *at)
{
    char about[ANSWER_ROOM], age[SPAN_ROOM], alone[SPAN_ROOM];
    struct state state;

    read_about(home, about);
    if (ask_state(home, time_left(at), &state) == 0) {
        bool is_in_use = state.alone_for < 0;
        spell_span(state.seconds, age);
        spell_span(state.alone_for, alone);
        printf("%s  %s old, %s%s, %d not written  %s\n", home->name, age, is_in_use ? "in use" : "alone for ", is_in_use ? "" : alone,
               state.unsaved, about);
    } else {
        list_silent(home, about);
    }
    return 0;
}

int list_sessions(void)
{
    int64_t until = now() + LONGEST_LIST;
    int error = each_home(list_one, &until);

    if (error != 0)
        say("sessions can't be listed: %s", error == EPERM ? "the folder of them is not yours alone" : cause(error));
    return error == 0 && fflush(stdout) == 0 ? STATUS_OK : STATUS_UNREADABLE;
}

/* ---- Other sessions on the same files ---- */

/* A new session, and until when others are asked. */
struct newcomer {
    struct session *session;
    int64_t until;
};

static int compare_with(struct home *home, void *at)
{
    const struct newcomer *new = at;
    struct session *session = new->session;
    char answer[ANSWER_ROOM], words[IDENTITY_ROOM];
    int line = -1;
    bool is_itself = strcmp(home->name, session->home.name) == 0;
    bool has_some = !is_itself && ask(home, "changed", sizeof "changed", time_left(&new->until), answer, &line) == 0 && *answer == ' ';

    close_file(&line);
    for (size_t tag = 1, tags = count_tags(session); has_some && tag < tags; tag++) {
        const struct document *document = &session->documents[tag];
        struct identity identity;
        bool is_known = document->path != NULL && !is_hidden(session, tag) && identify(document->path, &identity) == 0;
        if (is_known)
            spell_identity(&identity, words);
        if (is_known && strstr(answer, words) != NULL)
            say("%s has changes in session %s that are not written; samterm --take .. %s, or samhost --take %s, goes on with them",
                document->path, home->name, home->name, home->name);
    }
    return 0;
}

void report_others(struct session *session)
{
    struct newcomer new = {session, now() + LONGEST_LOOK};

    (void)each_home(compare_with, &new); /* where they can't be listed, nothing is known of them */
}

/* ---- The end ---- */

/* Asks the samhost of a session to end, where one listens. */
static int ask_to_end(const struct home *home, bool *is_asked)
{
    char answer[ANSWER_ROOM];
    int line, error = ask(home, "end", sizeof "end", LONGEST_ANSWER, answer, &line);

    *is_asked = line >= 0; /* it takes the question also where its answer is late */
    close_file(&line);
    return !*is_asked && error == EAGAIN ? ETIMEDOUT : 0; /* else it is gone, or has not begun to listen */
}

/* Has the samhost of a session end, and waits until it has; hands out whether it could be asked. 0 where it was gone, and its folder is
 * locked now; ENOENT once all of it is gone. */
static int end_living(struct home *home, bool *is_asked)
{
    int64_t until = now() + LONGEST_END;

    for (;;) {
        int error = *is_asked ? 0 : ask_to_end(home, is_asked);
        if (error == 0)
            error = lock_home(home);
        if (error != EWOULDBLOCK || now() >= until)
            return error;
        (void)poll(NULL, 0, NAP);
    }
}

int end_session(const char *name)
{
    struct home home;
    bool is_asked = false;
    int error = open_named(name, &home);

    if (error == ENOENT) {
        say("there is no session %s", name);
        return STATUS_NO_SESSION;
    }
    if (error == 0)
        error = end_living(&home, &is_asked);
    if (error == 0)
        return end_without_samhost(&home, is_asked);
    close_home(&home);
    if (error == ENOENT)
        return STATUS_OK;
    say("session %s has not ended: %s", name, error == EWOULDBLOCK ? "its samhost still works" : cause(error));
    return STATUS_BROKEN;
}

/* ---- A file to be shown ---- */

/* The session that began last, of those whose samhost answers. One that has a terminal comes before one that has none: nobody would see
 * the file there. */
struct newest {
    char name[NAME_DIGITS + 1];
    bool is_in_use;
    int64_t begun; /* when, in nanoseconds */
    int64_t until; /* until when answers are waited for */
};

static int find_newest(struct home *home, void *at)
{
    struct newest *newest = at;
    struct stat status;
    struct state state;

    if (fstatat(home->folder, ABOUT, &status, AT_SYMLINK_NOFOLLOW) != 0 || ask_state(home, time_left(&newest->until), &state) != 0)
        return 0;
    int64_t begun = (int64_t)status.st_mtim.tv_sec * 1000000000 + status.st_mtim.tv_nsec;
    bool is_in_use = state.alone_for<0, is_newer = begun> newest->begun;
    if (*newest->name == '\0' || (is_in_use == newest->is_in_use ? is_newer : is_in_use)) {
        memcpy(newest->name, home->name, sizeof newest->name);
        newest->is_in_use = is_in_use;
        newest->begun = begun;
    }
    return 0;
}

/* The words of the question, in memory of the caller's: the path is a whole one, since samhost runs elsewhere. */
static char *spell_question(const char *path, const char *line, bool waits, size_t *len)
{
    char *folder = *path == '/' ? formatted("") : getcwd(NULL, 0);
    char *words = folder == NULL
                      ? NULL
                      : formatted("open%c%s%s%s%c%s%c%s", 0, folder, *path == '/' ? "" : "/", path, 0, line, 0, waits ? "wait" : "");

    *len = words == NULL ? 0 : strlen("open") + strlen(folder) + (*path != '/') + strlen(path) + strlen(line) + (waits ? 4 : 0) + 4;
    free(folder);
    return words;
}

/* Waits for the last line of an answer. */
static int await_close(int line)
{
    char answer[ANSWER_ROOM];
    size_t has = 0;
    ssize_t count;

    do {
        count = read(line, answer + has, sizeof answer - 1 - has);
        has += count > 0 ? (size_t)count : 0;
    } while (count > 0 || (count < 0 && errno == EINTR));
    answer[has] = '\0';
    return strstr(answer, "written\n") != NULL ? STATUS_OK : STATUS_LOST;
}

/* Opens the folder of the session of a name, or where that is NULL of the newest one; ENOENT where there is none. */
static int open_wanted(const char *name, struct home *home)
{
    struct newest newest = {.until = now() + LONGEST_ANSWER};
    int error = name != NULL ? 0 : each_home(find_newest, &newest);

    if (error == 0 && name == NULL && *newest.name == '\0')
        error = ENOENT;
    return error != 0 ? error : open_named(name != NULL ? name : newest.name, home);
}

int open_in_session(const char *name, const char *path, const char *line, bool waits)
{
    struct home home;
    char answer[ANSWER_ROOM];
    size_t len;
    int socket = -1, error = open_wanted(name, &home);

    if (error == ENOENT) {
        say("there is no session%s%s in which %s can be shown", name == NULL ? "" : " ", name == NULL ? "" : name, path);
        return STATUS_NO_SESSION;
    }
    if (error == 0) {
        char *words = spell_question(path, line, waits, &len);
        error = words == NULL ? ENOMEM : ask(&home, words, len, LONGEST_ANSWER, answer, &socket);
        close_home(&home);
        free(words);
    }
    if (error == 0 && strncmp(answer, "refused ", 8) == 0)
        say("%s: %.*s", path, (int)strcspn(answer + 8, "\n"), answer + 8);
    else if (error != 0)
        say("%s: %s", path, cause(error));
    int status = error != 0 || strncmp(answer, "opened", 6) != 0 ? STATUS_UNREADABLE : !waits ? STATUS_OK : await_close(socket);
    close_file(&socket);
    return status;
}
