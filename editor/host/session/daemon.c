/* daemon.c: begins a session that stays in a process of its own, or finds it again; the present process relays to it.
 *
 * The files are read before that process begins, so what is wrong with them is said where samhost was called.
 */
#define _GNU_SOURCE
#include <errno.h>
#include <fcntl.h>
#include <stdlib.h>
#include <string.h>
#include <sys/socket.h>
#include <sys/stat.h>
#include <sys/wait.h>
#include <time.h>
#include <unistd.h>

#include "session/daemon.h"
#include "disk/errors.h"
#include "disk/fallback_directories.h"
#include "journal/journal_records.h"
#include "journal/replay.h"
#include "net/event_loop.h"
#include "net/relay.h"
#include "session/home_keeper.h"
#include "session/persistent_session.h"
#include "session/session.h"
#include "session/session_control.h"
#include "session/turns.h"

enum {
    LONGEST_START = 10000, /* milliseconds that a session may take until it listens */
    LONGEST_BARE = 259200, /* seconds that a folder without a journal stays whose samhost is gone: three days */
    NAP = 5000000          /* nanoseconds between two attempts */
};

/* ---- Errors ---- */

/* Says why the folder of a session can't be used. Returns the exit status. */
static int say_home(const char *name, int error)
{
    if (error == EPERM)
        say("the folder of session %s is not yours alone", name);
    else if (error == ENOENT)
        say("there is no folder for session %s: $HOME or $XDG_STATE_HOME has to name one", name);
    else
        say("session %s: %s", name, cause(error));
    return error == ENOMEM ? STATUS_MEMORY : STATUS_UNREADABLE;
}

/* ---- A process of its own ---- */

/* Makes a session without files, in a folder that is its own from now on, where it has one. Where memory is out that is said, and the
 * folder is closed; one without a journal goes. */
static struct session *make_staying(struct home *home, int64_t longest_alone)
{
    struct session *session = calloc(1, sizeof *session);

    if (session == NULL) {
        say("out of memory");
        if (!has_journal(home))
            remove_home(home);
        close_home(home);
        return NULL;
    }
    session->home = *home;
    session->listener = session->home_watch = session->line = session->line_out = session->journal.file = -1;
    session->longest_alone = longest_alone;
    for (int at = 0; at < MOST_CALLERS; at++)
        session->callers[at].socket = -1;
    for (int at = 0; at < MOST_WAITERS; at++)
        session->waiters[at].socket = -1;
    return session;
}

/* Frees a session, and closes what it has open. Its folder stays. */
static void free_staying(struct session *session)
{
    listen_for_messages(NULL);
    free_messages(&session->messages);
    close_journal(&session->journal);
    for (int at = 0; at < MOST_CALLERS; at++)
        close_file(&session->callers[at].socket);
    for (int at = 0; at < MOST_WAITERS; at++)
        close_file(&session->waiters[at].socket);
    close_file(&session->listener);
    close_file(&session->home_watch);
    close_home(&session->home);
    free_session(session);
}

/* Leaves the terminal and the standard streams of the process that called. */
static void go_alone(void)
{
    int nowhere = open("/dev/null", O_RDWR);

    (void)setsid();
    for (int file = STDIN_FILENO; nowhere >= 0 && file <= STDERR_FILENO; file++)
        (void)dup2(nowhere, file);
    if (nowhere > STDERR_FILENO)
        close(nowhere);
}

static int say_not_begun(const struct home *home, const char *why)
{
    listen_for_messages(NULL);
    say("session %s did not begin: %s", home->name, why);
    return STATUS_BROKEN;
}

/* Serves a session, in the process that was begun for it. Where it can't, one to which no terminal has come goes. Returns the exit status. */
static int serve_alone(struct session *session)
{
    sigset_t mask;
    int status = STATUS_BROKEN;

    set_signals(&mask); /* before its process is named, so that a signal ends it as any session */
    int error = listen_in_home(session);
    if (error == 0) {
        go_alone();
        status = stay_and_serve(session);
    } else
        (void)say_not_begun(&session->home, cause(error));
    if (error == 0 ? !session->is_kept : !session->is_named)
        remove_home(&session->home);
    free_staying(session);
    return status;
}

/* ---- A session that ends with its line ---- */

/* Serves a session over standard input and output. Returns the exit status. */
static int serve_session(struct session *session)
{
    sigset_t mask;
    int flags = fcntl(STDOUT_FILENO, F_GETFL);

    set_signals(&mask);
    int status = hear_streams(session, &mask);
    if (status == STATUS_OK && session->is_named) {
        fcntl(STDOUT_FILENO, F_SETFL, flags | O_NONBLOCK);
        status = stay_and_serve(session);
        fcntl(STDOUT_FILENO, F_SETFL, flags);
    }
    return status;
}

int serve_streams(char **paths, int count, const struct options *options)
{
    struct home nowhere = {.all = -1, .folder = -1, .lock = -1};
    if (options->name != NULL)
        memcpy(nowhere.name, options->name, sizeof nowhere.name);
    struct session *session = make_staying(&nowhere, 0);

    if (session == NULL)
        return STATUS_MEMORY;
    session->has_streams = true;
    listen_for_messages(session);
    int status = open_session(session, paths, count, options);
    if (status == STATUS_OK)
        status = serve_session(session);
    else
        say_gathered(session);
    free_staying(session);
    return status;
}

/* ---- Finding it again ---- */

/* Connects to a session of which the folder is there. ENOENT where no samhost has it any more. */
static int find(struct home *home, int *line)
{
    int64_t until = now() + LONGEST_START;
    int error;

    while ((error = connect_home(home, 0, line)) != 0 && error != EPERM && now() < until) {
        int locked = lock_home(home);
        if (locked != EWOULDBLOCK)
            return locked == 0 ? ENOENT : locked;
        nanosleep(&(struct timespec){0, NAP}, NULL); /* it has begun, and doesn't listen yet */
    }
    return error == ENOENT ? ETIMEDOUT : error;
}

static const char *why_not_again(enum replay_fault fault)
{
    static const char *const words[] = {
        [REPLAY_OTHER] = "its journal is of another version of samhost",
        [REPLAY_OTHER_FORM] = "its journal is of another version of samhost",
        [REPLAY_DIFFERS] = "its journal has records that lead nowhere, which is a fault of samhost",
        [REPLAY_SHORT] = "out of memory",
        [REPLAY_NO_FOLDER] = "the folder in which it began can't be entered",
        [REPLAY_UNFINISHED] =
            "its journal could not be written to its end, so of what came then only the copies are known that it has saved",
        [REPLAY_UNREADABLE] = "its journal can't be read, or not be cut to its whole records",
    };

    return words[fault];
}

/* Keeps a journal that is wrong, so that it can be looked at, and says where. Returns whether it is kept. */
static bool keep_wrong(const struct home *home)
{
    char *path = NULL;
    int error = keep_wrong_journal(home, &path);

    if (error == 0)
        say("the journal of session %s is kept as %s", home->name, path == NULL ? WRONG_JOURNAL : path);
    else
        say("the journal of session %s stays where it is: %s", home->name, cause(error));
    free(path);
    return error == 0;
}

/* Says why a session can't be made again, and saves its texts aside where they are known. Where it will never be, its folder goes, but for
 * a journal that is wrong, or that has a text which could not be saved. Returns the exit status. */
static int give_up(struct session *session, enum replay_fault fault, bool is_attached)
{
    struct home *home = &session->home;
    bool is_wrong = fault == REPLAY_DAMAGED || fault == REPLAY_DIFFERS;
    bool is_known = session->documents != NULL && (fault == REPLAY_OTHER || fault == REPLAY_UNFINISHED || is_wrong);
    bool is_for_ever = is_known || is_wrong;

    say_gathered(session);
    if (fault == REPLAY_DAMAGED)
        say("session %s can't go on: its journal is damaged at byte %zu", home->name, session->journal.end.at);
    else
        say("session %s can't go on: %s", home->name, why_not_again(fault));
    if (fault == REPLAY_OTHER)
        (void)take_all(session); /* writes a file, if that was asked for last */
    bool is_saved = !is_known || close_session(session, INPUT_ENDED) == STATUS_OK;
    if (is_wrong)
        is_saved = keep_wrong(home);
    if (is_for_ever && is_saved)
        remove_home(home);
    free_staying(session);
    if (is_attached && (is_for_ever || fault == REPLAY_OTHER || fault == REPLAY_OTHER_FORM))
        return refuse_hello(SAM_LINK_NO_SESSION);
    return fault == REPLAY_SHORT ? STATUS_MEMORY : STATUS_UNREADABLE;
}

/* Names the folder as the session is named, where a takeover had not come to that. */
static void finish_naming(struct session *session)
{
    char name[NAME_DIGITS + 1];

    name_of_id(session->id, name);
    if (session->is_named && strcmp(name, session->home.name) != 0 && rename_home(&session->home, name) == 0)
        (void)sync_home(&session->home);
}

/* Makes a session again whose samhost is gone, and serves it. Returns the exit status. */
static int serve_again(struct home *home)
{
    struct session *session = make_staying(home, 0);

    if (session == NULL)
        return STATUS_MEMORY;
    listen_for_messages(session);
    enum replay_fault fault = begin_again(session);
    if (fault != REPLAY_OK)
        return give_up(session, fault, true);
    finish_naming(session);
    return serve_alone(session);
}

/* Has another process serve a new session; or where that is NULL go on with the one of a folder that is locked, whose samhost is gone. This
 * one relays. A long journal may take longer than a terminal waits, which then ends this process: so the other one makes the session again,
 * and the next connection finds it. Returns the exit status of either. */
static int serve_apart(struct home *home, struct session *session)
{
    pid_t process = fork(), gone = process < 0;
    int line = -1, ended = 0, error = process < 0 ? errno : 0;

    if (process == 0) {
        (void)setsid();
        return session == NULL ? serve_again(home) : serve_alone(session);
    }
    while (gone == 0 && ((error = connect_home(home, 0, &line)) == ENOENT || error == ECONNREFUSED)) { /* it doesn't listen yet */
        gone = waitpid(process, &ended, WNOHANG);
        nanosleep(&(struct timespec){0, NAP}, NULL);
    }
    if (session != NULL)
        free_staying(session);
    else
        close_home(home);
    if (error == 0)
        return relay(line);
    if (gone == process)
        return WIFEXITED(ended) ? WEXITSTATUS(ended) : say_not_begun(home, "its process ended");
    return say_not_begun(home, cause(error));
}

/* ---- Beginning ---- */

/* Begins a session in its folder, which is locked. Returns the exit status. */
static int begin_in(struct home *home, char **paths, int count, const struct options *options)
{
    struct session *session = make_staying(home, options->longest_alone);

    if (session == NULL)
        return STATUS_MEMORY;
    listen_for_messages(session);
    int status = open_session(session, paths, count, options);
    if (status == STATUS_OK) {
        begin_fresh_journal(session);
        write_about(session);
        report_others(session);
        return serve_apart(home, session);
    }
    say_gathered(session);
    remove_home(home);
    free_staying(session);
    return status;
}

/* ---- Its end ---- */

/* Says what is left of a session that has no journal, unless that is nothing and its samhost has just ended it. Returns the exit status. */
static int report_rest(const struct home *home, bool has_ended)
{
    char *path = find_wrong_journal(home);
    int status = path != NULL || !has_ended ? STATUS_UNREADABLE : STATUS_OK;

    if (path != NULL)
        say("all that is left of session %s is a journal that is wrong, in %s", home->name, path);
    else if (!has_ended)
        say("session %s has no journal, so of its texts nothing is known but the copies that it has saved", home->name);
    free(path);
    return status;
}

int end_without_samhost(struct home *home, bool has_ended)
{
    struct session *session = make_staying(home, 0);

    if (session == NULL)
        return STATUS_MEMORY;
    session->is_to_end = true;
    bool has_some = has_journal(home);
    enum replay_fault fault = has_some ? begin_again(session) : REPLAY_OK;
    if (fault != REPLAY_OK)
        return give_up(session, fault, false);
    if (has_some)
        (void)take_all(session); /* writes a file, if that was asked for last */
    int status = has_some ? close_session(session, INPUT_ENDED) : report_rest(home, has_ended);
    if (status == STATUS_LOST)
        say("session %s stays, since its journal has what is not saved: --end can be tried again", home->name);
    else
        remove_home(home);
    free_staying(session);
    return status;
}

/* Refuses a terminal's hello, since there is no session of a name, or where that is NULL none at all; and says why. Returns the exit
 * status. */
static int refuse_name(const char *name)
{
    char *path = state_path();

    if (path == NULL || access(path, F_OK) != 0)
        say("there is no state folder%s%s, so no session is found", path == NULL ? "" : " ", path == NULL ? "" : path);
    else
        say("there is no session%s%s", name == NULL ? "" : " ", name == NULL ? "" : name);
    free(path);
    return refuse_hello(SAM_LINK_NO_SESSION);
}

/* ---- Sessions that nobody came back to ---- */

/* Whether a folder has had no journal for a while, nor a wrong one: its samhost had none, and is gone, or never came to one. */
static bool is_left_bare(const struct home *home)
{
    struct stat status;
    char *wrong = find_wrong_journal(home);
    bool is_bare = wrong == NULL && !has_journal(home);

    free(wrong);
    return is_bare && fstat(home->folder, &status) == 0 && time(NULL) - status.st_mtime > LONGEST_BARE;
}

static bool is_left(const struct home *home)
{
    return is_left_alone(home) || is_left_bare(home);
}

/* Ends a session that is left alone, unless a samhost has it. */
static int end_left(struct home *home, void *at)
{
    (void)at;
    if (is_left(home) && lock_home(home) == 0 && is_left(home)) {
        (void)end_without_samhost(home, false);
        home->all = home->folder = home->lock = -1; /* they are closed */
    }
    return 0;
}

/* Ends sessions whose samhost is gone and that have been alone for as long as they may be, in a process of its own: it enters their
 * folders, and nobody waits for it. */
static void end_those_left(void)
{
    pid_t process = fork();

    if (process > 0)
        (void)waitpid(process, NULL, 0);
    if (process != 0)
        return;
    if (fork() == 0) {
        go_alone();
        (void)each_home(end_left, NULL);
    }
    _exit(STATUS_OK);
}

/* ---- What the words ask for ---- */

/* Relays to a session, which another process goes on with where its samhost is gone, and hands out the exit status. False where it has no
 * journal: then it is locked, unless it has just ended. */
static bool joins(struct home *home, const char *name, int *status)
{
    int line, error = find(home, &line);

    if (error == ENOENT && (home->lock < 0 || !has_journal(home)))
        return false;
    if (error == ENOENT) {
        *status = serve_apart(home, NULL);
    } else {
        close_home(home);
        *status = error == 0 ? relay(line) : say_home(name, error);
    }
    return true;
}

int attach(const char *name)
{
    struct home home;
    char heir[NAME_DIGITS + 1];
    int status, error = open_named(name, &home);

    if (error != 0 && error != ENOENT)
        return say_home(name, error);
    if (error == 0 && joins(&home, name, &status))
        return status;
    if (error == 0 && home.lock >= 0)
        (void)end_without_samhost(&home, false);
    else if (error == 0)
        close_home(&home);
    return find_heir(name, heir) ? refuse_hello(SAM_LINK_OTHER_SESSION) : refuse_name(name);
}

int begin_to_stay(char **paths, int count, const struct options *options)
{
    struct home home;
    int status;

    end_those_left();
    int error = open_home(options->name, true, &home);
    if (error != 0)
        return say_home(options->name, error);
    if (joins(&home, options->name, &status))
        return status;
    if (home.lock >= 0)
        return begin_in(&home, paths, count, options);
    close_home(&home);
    return refuse_name(options->name);
}

/* Whether a session is over, and its samhost is gone: it has no journal from which another can go on. */
static bool is_over(struct home *home)
{
    return !has_whole_journal(home) && lock_home(home) == 0;
}

/* Notes the name of a session, if it is the first. */
static int find_only(struct home *home, void *at)
{
    char *name = at;

    if (is_over(home))
        return 0;
    if (*name != '\0')
        return EEXIST;
    memcpy(name, home->name, NAME_DIGITS + 1);
    return 0;
}

int take(const char *name)
{
    char only[NAME_DIGITS + 1] = "", heir[NAME_DIGITS + 1];
    int error = name != NULL ? 0 : each_home(find_only, only);

    if (error == EEXIST) {
        say("there are several sessions, so one has to be named; --list lists them");
        return STATUS_WORDS;
    }
    if (error != 0) {
        say("sessions can't be listed: %s", cause(error));
        return STATUS_UNREADABLE;
    }
    if (name == NULL && *only == '\0')
        return refuse_name(NULL);
    if (name != NULL && find_heir(name, heir)) /* who is to come back finds it, whoever has taken it since */
        return attach(heir);
    return attach(name != NULL ? name : only);
}
