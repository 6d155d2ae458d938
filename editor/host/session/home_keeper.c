/* home_keeper.c: keeps the folder of a session that stays, which somebody may remove, or a file in it, while its samhost lives.
 *
 * Where the lock is lost another samhost may begin there: it finds no socket, or none where anybody listens, and goes on from the journal.
 * What it has done then counts, and this samhost leaves the folder alone.
 */
#define _GNU_SOURCE
#include <errno.h>
#include <stdio.h>
#include <sys/inotify.h>
#include <sys/stat.h>
#include <unistd.h>

#include "session/home_keeper.h"
#include "disk/errors.h"
#include "session/session.h"
#include "session/session_control.h"

enum {
    PATH_ROOM = 32,     /* bytes of the path of an open file */
    CHANGES_ROOM = 4096 /* bytes of changes that are taken at once */
};

/* Where the system has no room for one more watch, samhost looks at the folder when it wakes for something else. */
static void watch_home(struct session *session)
{
    char path[PATH_ROOM];

    close_file(&session->home_watch);
    session->home_watch = inotify_init1(IN_NONBLOCK | IN_CLOEXEC);
    snprintf(path, sizeof path, "/proc/self/fd/%d", session->home.folder);
    if (inotify_add_watch(session->home_watch, path, IN_DELETE | IN_MOVE) < 0)
        close_file(&session->home_watch);
}

void forget_changes(struct session *session)
{
    char changes[CHANGES_ROOM];

    while (read(session->home_watch, changes, sizeof changes) > 0)
        continue;
}

int listen_in_home(struct session *session)
{
    int listener, error = bind_home(&session->home, &listener);

    if (error == 0) {
        write_owner(&session->home);
        error = listen_at(listener);
    }
    if (error != 0) {
        close_file(&listener);
        return error;
    }
    close_file(&session->listener);
    session->listener = listener;
    watch_home(session);
    return 0;
}

bool is_home_whole(const struct session *session)
{
    const struct home *home = &session->home;

    return has_lock(home) && has_socket(home) && is_in_home(home, JOURNAL, session->journal.file);
}

/* Whether another samhost has written to the journal: each that goes on from one does so at once. */
static bool is_gone_on_with(const struct journal *journal)
{
    struct stat status;

    return fstat(journal->file, &status) == 0 && (uint64_t)status.st_size != journal->end.durable + journal->written;
}

/* Takes the lock again, in a folder that has no journal, or the session's own. */
static int take_home_again(struct session *session)
{
    const struct home *home = &session->home;
    int file = session->journal.file, error = is_gone_on_with(&session->journal) ? OTHER_HAS_IT : renew_home(&session->home);
    bool has_other = error == 0 && has_journal(home) && !is_in_home(home, JOURNAL, file) && !is_in_home(home, UNFINISHED_JOURNAL, file);

    return has_other ? OTHER_HAS_IT : error;
}

int mend_home(struct session *session)
{
    bool is_lost = !has_lock(&session->home);
    int error = is_lost ? take_home_again(session) : 0;

    if (error == 0 && (is_lost || !has_socket(&session->home)))
        error = listen_in_home(session);
    if (error == 0 && is_lost)
        write_about(session);
    return error;
}
