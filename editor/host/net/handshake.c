/* handshake.c: takes connections, and reads what they say first: the hello of a terminal's link, or what another samhost asks for.
 *
 * Who connects has to be the user. The system says so, and the folder lets nobody else in.
 */
#define _GNU_SOURCE
#include <errno.h>
#include <poll.h>
#include <stdio.h>
#include <stdlib.h>
#include <string.h>
#include <sys/socket.h>
#include <unistd.h>

#include "net/handshake.h"
#include "disk/errors.h"
#include "disk/file_reader.h"
#include "disk/saves.h"
#include "journal/journal_records.h"
#include "log.h"
#include "net/event_loop.h"
#include "session/file_requests.h"
#include "session/persistent_session.h"
#include "session/session.h"
#include "session/takeover.h"

enum {
    LONGEST_HELLO = 10000, /* milliseconds that a connection may take for what it says first */
    DEAF = 100             /* milliseconds until a connection is taken for which the system has no room */
};

void name_machine(char machine[MACHINE_ROOM])
{
    if (gethostname(machine, MACHINE_ROOM) != 0)
        machine[0] = '\0';
    machine[MACHINE_ROOM - 1] = '\0';
    make_printable(machine);
}

/* ---- Connections ---- */

static void drop_caller(struct caller *caller)
{
    close_file(&caller->socket);
    caller->len = 0;
}

void accept_callers(struct session *session)
{
    for (int at = 0; at < MOST_CALLERS; at++) {
        struct caller *caller = &session->callers[at];
        if (caller->socket >= 0)
            continue;
        int socket = accept4(session->listener, NULL, NULL, SOCK_NONBLOCK | SOCK_CLOEXEC);
        if (socket < 0 && errno != EAGAIN && errno != EINTR && errno != ECONNABORTED)
            (void)poll(NULL, 0, DEAF); /* the connection waits still, so a look would find it at once */
        if (socket < 0)
            return;
        caller->socket = socket;
        caller->since = now();
        caller->len = 0;
        if (!is_ours(socket))
            drop_caller(caller);
    }
}

int64_t drop_callers(struct session *session)
{
    int64_t next = -1;

    for (int at = 0; at < MOST_CALLERS; at++) {
        struct caller *caller = &session->callers[at];
        int64_t left = caller->since + LONGEST_HELLO - now();
        if (caller->socket >= 0 && left <= 0)
            drop_caller(caller);
        else if (caller->socket >= 0 && (next < 0 || left < next))
            next = left;
    }
    return next;
}

/* ---- Hellos ---- */

void name_of_id(const uint8_t id[SAM_LINK_ID_BYTES], char name[NAME_DIGITS + 1])
{
    for (int at = 0; at < NAME_DIGITS / 2; at++)
        snprintf(name + 2 * at, 3, "%02x", id[at]);
}

/* What the library says of the hello of a connection; SAM_NONE where more of it is to come. */
static sam_status status_of(struct caller *caller)
{
    uint64_t attempt;

    return sam_link_read_hello(caller->bytes, caller->len, &caller->what, caller->id, &attempt);
}

/* At the first hello, which says how the session is named in full: the files go over to a server of that name, and the first message stands
 * before all others. */
static sam_status name_server(struct session *session, const struct caller *caller)
{
    sam_server *named = calloc(1, sizeof *named);
    char name[NAME_DIGITS + 1];

    name_of_id(caller->id, name);
    if (*session->home.name == '\0')
        memcpy(session->home.name, name, sizeof name);
    sam_status code = strcmp(name, session->home.name) != 0 ? SAM_LINK_OTHER_SESSION : named == NULL ? SAM_NO_MEMORY : SAM_OK;
    if (code == SAM_OK)
        code = sam_server_heir(session->server, caller->id, named);
    if (code == SAM_OK)
        code = sam_server_accept(named, caller->bytes, caller->len);
    bool is_taken = code == SAM_OK || code == SAM_UNFINISHED;
    if (!is_taken || !put_first_message(session, name)) {
        (void)sam_server_free(named);
        free(named);
        return is_taken ? SAM_NO_MEMORY : code;
    }
    (void)sam_server_free(session->server);
    free(session->server);
    session->server = named;
    memcpy(session->id, caller->id, SAM_LINK_ID_BYTES);
    session->is_named = true;
    if (takes_records(&session->journal))
        begin_fresh_journal(session);
    return SAM_OK;
}

/* Has the server take a connection. What it refuses changes nothing. */
static sam_status answer(struct session *session, const struct caller *caller)
{
    sam_status code = session->is_named ? sam_server_accept(session->server, caller->bytes, caller->len) : name_server(session, caller);

    return code == SAM_UNFINISHED ? SAM_OK : code == SAM_WAITING ? SAM_NO_MEMORY : code;
}

/* Takes a connection whose hello is whole, in the place of the one before, or refuses it. */
static void take_hello(struct session *session, struct caller *caller)
{
    uint8_t refusal[SAM_LINK_HELLO_BYTES];
    sam_status code = status_of(caller);

    if (code == SAM_NONE)
        return;
    bool is_its_own = session->is_named && memcmp(caller->id, session->id, SAM_LINK_ID_BYTES) == 0;
    if (code == SAM_OK)
        code = caller->what == SAM_LINK_TAKE_OVER && !is_its_own ? take_over(session, caller) : answer(session, caller);
    if (code == SAM_OK) {
        close_file(&session->line);
        forget_pieces(session);
        session->line = session->line_out = caller->socket;
        caller->socket = -1;
    } else if (sam_link_write_refusal(code, caller->bytes, caller->len, refusal) == SAM_OK) {
        (void)send(caller->socket, refusal, sizeof refusal, MSG_NOSIGNAL | MSG_DONTWAIT); /* where it doesn't go, nobody is there */
    }
    drop_caller(caller);
}

/* ---- Standard input and output ---- */

/* Reads up to the end of a hello, as long as some comes within a limit, and hands out what is wrong with it, or SAM_OK. Returns an error
 * number, or 0; also where it ends. */
static int read_hello(struct caller *caller, const sigset_t *mask, const struct timespec *limit, sam_status *code)
{
    ssize_t count = 1;

    while ((*code = status_of(caller)) == SAM_NONE && count != 0 && !is_signalled()) {
        struct pollfd end = {STDIN_FILENO, POLLIN, 0};
        int ready = ppoll(&end, 1, limit, mask);
        if (ready < 0)
            continue;
        count = ready == 0 ? 0 : read(STDIN_FILENO, caller->bytes + caller->len, SAM_LINK_HELLO_BYTES - caller->len);
        if (count < 0 && errno != EAGAIN && errno != EINTR)
            return errno;
        caller->len += count > 0 ? (size_t)count : 0;
    }
    return 0;
}

/* Refuses a hello, or what is none, as far as there is somebody to hear that. */
static void send_refusal(const struct caller *caller, sam_status code)
{
    uint8_t refusal[SAM_LINK_HELLO_BYTES];

    if (!isatty(STDOUT_FILENO) && sam_link_write_refusal(code, caller->bytes, caller->len, refusal) == SAM_OK)
        (void)!write(STDOUT_FILENO, refusal, sizeof refusal); /* where it doesn't go, the status says it */
}

int refuse_hello(sam_status why)
{
    const struct timespec limit = {LONGEST_HELLO / 1000, 0};
    struct caller caller = {0};
    sam_status code;

    (void)read_hello(&caller, NULL, &limit, &code);
    send_refusal(&caller, why);
    return STATUS_NO_SESSION;
}

/* Says why a hello is not taken. Returns the exit status. */
static int refuse_streams(const struct caller *caller, sam_status code)
{
    send_refusal(caller, code);
    if (code == SAM_NO_MEMORY) {
        say("out of memory");
        return STATUS_MEMORY;
    }
    if (code != SAM_NONE && code != SAM_LINK_NOT_A_LINK)
        return STATUS_NO_SESSION;
    say("standard input has no hello of a terminal; samterm, samweb and Emacs start samhost, and samterm FILE edits a file");
    return code == SAM_NONE ? STATUS_BROKEN : STATUS_FAULT;
}

int hear_streams(struct session *session, const sigset_t *mask)
{
    struct caller *caller = &session->callers[0];
    sam_status code;
    int error = read_hello(caller, mask, NULL, &code);

    if (code == SAM_OK) /* a session of these streams has nothing that a terminal could take over */
        code = caller->what == SAM_LINK_TAKE_OVER ? SAM_LINK_NO_SESSION : answer(session, caller);
    if (code == SAM_OK) {
        session->line = STDIN_FILENO;
        session->line_out = STDOUT_FILENO;
        return STATUS_OK;
    }
    say_gathered(session);
    if (is_signalled())
        return STATUS_OK;
    if (error == 0)
        return refuse_streams(caller, code);
    say("standard input can't be read: %s", cause(error));
    return STATUS_BROKEN;
}

/* ---- What another samhost asks for ---- */

/* Whether bytes begin as a question does: its mark differs from that of a hello. */
static bool is_question(const struct caller *caller)
{
    return caller->len >= QUESTION_MARK_LEN && memcmp(caller->bytes, QUESTION_MARK, QUESTION_MARK_LEN) == 0;
}

/* How many bytes of a question, or of a hello, are wanted in all, as far as what has come says. Behind a hello all is the link's. */
static size_t wanted_len(const struct caller *caller)
{
    const uint8_t *bytes = caller->bytes;

    if (!is_question(caller))
        return caller->len < QUESTION_MARK_LEN ? QUESTION_MARK_LEN : SAM_LINK_HELLO_BYTES;
    return caller->len < QUESTION_HEAD ? QUESTION_HEAD : QUESTION_HEAD + ((size_t)bytes[QUESTION_HEAD - 2] << 8 | bytes[QUESTION_HEAD - 1]);
}

/* Says one line to who has asked. */
static void answer_line(int socket, const char *line)
{
    (void)send(socket, line, strlen(line), MSG_NOSIGNAL | MSG_DONTWAIT); /* where it doesn't go, nobody is there */
}

static int count_unsaved(struct session *session)
{
    int count = 0;

    for (size_t tag = 1, tags = count_tags(session); tag < tags; tag++)
        count += is_changed(session, (uint16_t)tag);
    return count;
}

/* Says which files are not written, as far as a line has room for them. */
static void answer_changed(struct session *session, const struct caller *caller)
{
    char line[ANSWER_ROOM], words[IDENTITY_ROOM];
    size_t tags = count_tags(session), len = 0;
    int error;

    for (size_t tag = 1; tag < tags && len + IDENTITY_ROOM + 1 < sizeof line; tag++) {
        struct identity identity;
        char *path = !is_changed(session, (uint16_t)tag) ? NULL : path_of(session, (uint16_t)tag, &error);
        if (path != NULL && identify(path, &identity) == 0) {
            spell_identity(&identity, words);
            len += (size_t)snprintf(line + len, sizeof line - len, "%s", words);
        }
        free(path);
    }
    memcpy(line + len, "\n", 2);
    answer_line(caller->socket, line);
}

/* Says how a session is: for how many seconds it has run, for how many nobody was there, and how many files are not written. */
static void answer_list(struct session *session, const struct caller *caller)
{
    int64_t time = now(), alone = session->line >= 0 ? -1 : (time - session->alone_since) / 1000;
    char line[ANSWER_ROOM];

    snprintf(line, sizeof line, "%lld %lld %d\n", (long long)(time - session->begun) / 1000, (long long)alone, count_unsaved(session));
    answer_line(caller->socket, line);
}

/* Whether who has asked is gone. */
static bool is_gone(int socket)
{
    uint8_t byte;

    return recv(socket, &byte, 1, MSG_PEEK | MSG_DONTWAIT) == 0;
}

/* A place for one more who waits; NULL where there is none. Who has gone meanwhile no longer waits. */
static struct waiter *free_waiter(struct session *session)
{
    for (int at = 0; at < MOST_WAITERS; at++) {
        struct waiter *waiter = &session->waiters[at];
        if (waiter->socket >= 0 && is_gone(waiter->socket))
            close_file(&waiter->socket);
        if (waiter->socket < 0)
            return waiter;
    }
    return NULL;
}

/* A path as seen from the folder of the session, where it leads into that. */
static const char *seen_from_here(const struct session *session, const char *path)
{
    size_t len = session->folder == NULL ? 0 : strlen(session->folder);

    return len > 1 && strncmp(path, session->folder, len) == 0 && path[len] == '/' && path[len + 1] != '\0' ? path + len + 1 : path;
}

/* Has the terminal show a file: a path, a line, and whether who asks waits until it is closed. Where memory is out nothing has changed. */
static void answer_open(struct session *session, struct caller *caller, const char *path, const char *line, bool waits)
{
    uint16_t tag = 0;
    char answer[ANSWER_ROOM];

    enter_folder(session);
    path = seen_from_here(session, path);
    int error = session->has_ended ? IS_OVER : session->is_short ? ENOMEM : is_folder(path) ? EISDIR : join_file(session, path, &tag);
    struct event shown = {.kind = SAM_NOTE_SHOWN, .tag = tag, .number = strtoull(line, NULL, 10)};

    if (error == 0 && !put_message(session, &shown, NULL))
        error = ENOMEM;
    snprintf(answer, sizeof answer, error == 0 ? "opened\n" : "refused %s\n", cause(error));
    answer_line(caller->socket, answer);
    struct waiter *waiter = error == 0 && waits ? free_waiter(session) : NULL;
    if (waiter != NULL) {
        *waiter = (struct waiter){.socket = caller->socket, .tag = tag};
        caller->socket = -1;
    }
}

void report_closing(struct session *session, uint16_t tag)
{
    bool is_written = !is_changed(session, tag);

    for (int at = 0; at < MOST_WAITERS; at++) {
        struct waiter *waiter = &session->waiters[at];
        if (waiter->socket < 0 || waiter->tag != tag)
            continue;
        answer_line(waiter->socket, is_written ? "written\n" : "closed\n");
        close_file(&waiter->socket);
    }
}

void report_closed(struct session *session)
{
    for (int at = 0; at < MOST_WAITERS; at++) {
        const struct waiter *waiter = &session->waiters[at];
        if (waiter->socket >= 0 && !has_file(session, waiter->tag))
            report_closing(session, waiter->tag);
    }
}

/* Takes a question that is whole: up to four words. */
static void take_question(struct session *session, struct caller *caller)
{
    const char *words[4] = {"", "", "", ""};
    const char *at = (const char *)caller->bytes + QUESTION_HEAD, *end = (const char *)caller->bytes + caller->len;

    if (end[-1] == '\0') {
        for (int word = 0; word < 4 && at < end; word++, at += strlen(at) + 1)
            words[word] = at;
    }
    if (strcmp(words[0], "list") == 0)
        answer_list(session, caller);
    else if (strcmp(words[0], "open") == 0 && !is_gone(caller->socket)) /* else that was told as not done */
        answer_open(session, caller, words[1], words[2], *words[3] != '\0');
    else if (strcmp(words[0], "changed") == 0)
        answer_changed(session, caller);
    else if (strcmp(words[0], "end") == 0) {
        session->is_to_end = true;
        answer_line(caller->socket, "ends\n");
    }
    drop_caller(caller);
}

/* ---- What is said first ---- */

void hear_caller(struct session *session, struct caller *caller)
{
    size_t wanted = wanted_len(caller);
    ssize_t count = wanted > CALLER_ROOM ? 0 : read(caller->socket, caller->bytes + caller->len, wanted - caller->len);

    if (count == 0 || (count < 0 && errno != EAGAIN && errno != EINTR)) {
        drop_caller(caller);
        return;
    }
    caller->len += count > 0 ? (size_t)count : 0;
    if (!is_question(caller))
        take_hello(session, caller);
    else if (caller->len > QUESTION_HEAD && caller->len == wanted_len(caller))
        take_question(session, caller);
}
