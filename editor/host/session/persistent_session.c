/* persistent_session.c: serves a session over its link: one that stays when its line breaks, or one that ends with it.
 *
 * The bytes of the session go through a link, which gives each of them once and in order over connections that may break anywhere. What
 * there is to say goes to the terminal as messages, in order with them. It ends when the terminal leaves, when somebody asks for that, and
 * when no connection was there for as long as the words say; before that it saves all that is not written. At a signal it does that, too,
 * but a session that has a folder stays there, for another samhost to go on: the machine may begin anew.
 *
 * A session that ends with its line has standard input and output for that. What it says once the input has ended stands on standard error,
 * too, since its terminal may be gone.
 */
#define _GNU_SOURCE
#include <errno.h>
#include <poll.h>
#include <sys/socket.h>
#include <unistd.h>

#include "session/persistent_session.h"
#include "disk/errors.h"
#include "journal/journal_records.h"
#include "journal/replay.h"
#include "net/event_loop.h"
#include "session/home_keeper.h"
#include "session/session.h"
#include "session/turns.h"

enum {
    LONGEST_END = 60000,   /* milliseconds that the last message is kept for a terminal that has left */
    UNASKED_END = 5000,    /* milliseconds that it is where the terminal has not asked for the end, and is there */
    LONGEST_UNMET = 60000, /* milliseconds that a session stays alone to which no terminal came: nothing can be lost with it */
    PAUSE = 100,           /* milliseconds until memory is asked for again */
    MOST_PIECES_LEFT = 64, /* pieces of input that are still taken after a signal */
    FIRST_CALLER = 4       /* of what is waited for: these come behind the others */
};

/* ---- The connection ---- */

/* No more comes over the newest connection. Standard output may still take what is due. */
static void end_line(struct session *session)
{
    if (session->has_streams)
        session->line = -1;
    else
        drop_line(session);
}

/* No more goes over it. The end of standard input will come, and what stands before it still counts. */
static void stop_sending(struct session *session, int error)
{
    if (!session->has_streams) {
        drop_line(session);
        return;
    }
    session->line_out = -1;
    if (error == EPIPE) /* the terminal has gone */
        return;
    session->broken = LINE_BROKE;
    say("standard output can't be written: %s", cause(error));
}

void break_line(struct session *session, sam_status why)
{
    end_line(session);
    session->in.sent = session->in.len = 0;
    if (session->has_streams) { /* else the next connection brings all of it again */
        session->line_out = -1; /* nothing goes over it any more */
        session->broken = FAULT;
        say("the terminal's stream is wrong (status %u)", (unsigned)why);
    }
}

/* Reads what has come over the newest connection. */
static void read_line(struct session *session)
{
    struct piece *in = &session->in;
    ssize_t count = read(session->line, in->bytes, PIECE);
    int error = count < 0 ? errno : 0;

    if (error == EAGAIN || error == EINTR)
        return;
    in->sent = 0;
    in->len = error == 0 ? (size_t)count : 0;
    if (count <= 0)
        end_line(session);
    if (error != 0 && session->has_streams) {
        session->broken = LINE_BROKE;
        say("standard input can't be read: %s", cause(error));
    }
}

void write_line(struct session *session)
{
    struct piece *out = &session->out;

    while (session->line_out >= 0) {
        if (out->sent == out->len) {
            out->sent = out->len = 0;
            if (sam_server_take_out(session->server, count_of(session, sam_server_attempt), out->bytes, PIECE, &out->len) != SAM_OK ||
                out->len == 0)
                return;
        }
        const uint8_t *rest = out->bytes + out->sent;
        size_t len = out->len - out->sent;
        ssize_t count =
            session->has_streams ? write(session->line_out, rest, len) : send(session->line_out, rest, len, MSG_NOSIGNAL | MSG_DONTWAIT);
        if (count < 0 && (errno == EAGAIN || errno == EINTR))
            return;
        if (count < 0)
            stop_sending(session, errno);
        else
            out->sent += (size_t)count;
    }
}

/* Says and sends what there is, once it is in the journal. */
static void send_all(struct session *session)
{
    put_messages(session);
    settle(session);
    write_line(session);
}

void say_the_last(struct session *session)
{
    char machine[MACHINE_ROOM];

    name_machine(machine);
    if (session->line < 0 || !put_message(session, &(struct event){.kind = SAM_NOTE_TAKEN_OVER}, machine))
        return;
    settle(session);
    write_line(session);
}

void forget_pieces(struct session *session)
{
    session->in.len = session->in.sent = session->out.len = session->out.sent = 0;
}

void drop_line(struct session *session)
{
    if (session->line < 0 || session->has_streams)
        return;
    close(session->line);
    session->line = session->line_out = -1;
    forget_pieces(session);
    session->alone_since = now();
    (void)!sam_server_broken(session->server, count_of(session, sam_server_attempt)); /* it takes no memory */
}

/* ---- Waiting ---- */

/* How many milliseconds are left until the session has been alone for too long; -1 where it is not alone, or may be for ever. */
static int64_t time_left_alone(const struct session *session)
{
    if (session->line >= 0 || session->longest_alone < 0)
        return -1;
    int64_t longest = session->is_met ? session->longest_alone : earlier(session->longest_alone, LONGEST_UNMET);
    int64_t left = session->alone_since + longest - now();
    return left > 0 ? left : 0;
}

/* In how many milliseconds something is to be done that nothing which comes asks for; -1: never. */
static int64_t time_to_wait(struct session *session, int64_t longest)
{
    int64_t wait = earlier(earlier(longest, save_is_due_in(session)), earlier(drop_callers(session), watch_is_due_in(session)));

    wait = earlier(wait, time_left_alone(session));
    bool has_more = session->is_named && (session->messages.waiting != NULL || !is_settled(session));
    return session->is_short || has_more ? earlier(wait, PAUSE) : wait;
}

/* Sleeps until something comes or is due, and reads what it can; what is to be sent goes once the host has taken that, so that one sync
 * does for the acknowledgement and the answer. Signals come here. */
static void carry(struct session *session, const sigset_t *mask, int64_t longest)
{
    struct pollfd ends[FIRST_CALLER + MOST_CALLERS];
    int64_t wait = time_to_wait(session, longest);
    struct timespec pause = {wait / 1000, wait % 1000 * 1000000};
    int free_ones = 0;

    for (int at = 0; at < MOST_CALLERS; at++) {
        ends[FIRST_CALLER + at] = (struct pollfd){session->callers[at].socket, POLLIN, 0};
        free_ones += session->callers[at].socket < 0;
    }
    ends[0] = (struct pollfd){free_ones > 0 ? session->listener : -1, POLLIN, 0};
    ends[1] = (struct pollfd){session->in.sent == session->in.len ? session->line : -1, POLLIN, 0};
    ends[2] = (struct pollfd){session->out.sent < session->out.len ? session->line_out : -1, POLLOUT, 0};
    ends[3] = (struct pollfd){session->home_watch, POLLIN, 0};
    if (ppoll(ends, FIRST_CALLER + MOST_CALLERS, wait < 0 ? NULL : &pause, mask) < 0)
        return;
    int line = session->line;
    if (ends[3].revents != 0)
        forget_changes(session);
    for (int at = 0; at < MOST_CALLERS; at++) {
        if (ends[FIRST_CALLER + at].revents != 0)
            hear_caller(session, &session->callers[at]);
    }
    if (ends[0].revents != 0)
        accept_callers(session);
    if (session->line >= 0 && session->line == line && ends[1].revents != 0)
        read_line(session);
}

/* ---- The session ---- */

/* After a signal, or a long time alone: takes what has come already. */
static enum ending take_what_is_there(struct session *session, const sigset_t *mask)
{
    enum ending ending = GOES_ON;
    uint64_t before, after = 0;
    int pieces = 0;

    do {
        before = after;
        ending = take_all(session);
        write_line(session);
        carry(session, mask, 0);
        after = count_of(session, sam_server_received) + (session->in.len - session->in.sent);
    } while (ending == GOES_ON && !session->is_short && after != before && ++pieces <= MOST_PIECES_LEFT);
    return ending;
}

static enum ending serve_line(struct session *session, const sigset_t *mask)
{
    enum ending ending = session->ending;

    while (ending == GOES_ON && !is_signalled() && !session->is_to_end && time_left_alone(session) != 0) {
        carry(session, mask, mending_is_due_in(session));
        if (session->line >= 0)
            renew_time(session);
        ending = take_turns(session);
        mend_journal(session);
        send_all(session);
        watch_files(session);
        if (save_due(session))
            record_copies(session);
        send_all(session);
    }
    if (ending == GOES_ON)
        ending = take_what_is_there(session, mask);
    if (ending == GOES_ON) /* its terminal has not left it */
        ending = session->broken == GOES_ON ? INPUT_ENDED : session->broken;
    return ending;
}

/* Whether the terminal has the last message, before which so many bytes were put and sent, or can't hear of it. It has what standard output
 * took, and where its stream is wrong, so that nothing is taken which it acknowledges, what went over a line that it has closed since. */
static bool has_heard_all(struct session *session, uint64_t wanted)
{
    if (sam_is_stop(sam_server_go_on(session->server)) || (session->has_streams && session->line_out < 0))
        return true;
    if (wanted == 0 || session->has_streams)
        return wanted > 0;
    return session->ending == FAULT ? session->line < 0 : count_of(session, sam_server_acknowledged) >= wanted;
}

/* Whether all that was said has gone over the line, the last message with it: where memory is out some of it waits. */
static bool has_sent_all(struct session *session)
{
    bool is_put = session->has_ended && session->messages.waiting == NULL && sam_server_go_on(session->server) == SAM_OK;

    return is_put && is_settled(session) && session->line_out >= 0 && session->out.sent == session->out.len;
}

/* Puts the last message, once there is memory for its record. */
static void put_last_message(struct session *session, int status)
{
    say_missing(&session->messages); /* no line comes after it */
    if (session->has_ended || session->messages.missing > 0 || !has_room_for_number(&session->journal))
        return;
    session->has_ended = put_message(session, &(struct event){.kind = SAM_NOTE_ENDED, .number = (uint64_t)status}, NULL);
    if (session->has_ended)
        add_number_entry(session, ENTRY_ENDED, (uint64_t)status);
}

/* How many bytes of the terminal's stream had come when the texts were saved for the end. Where another samhost may have been killed before
 * it had saved what came behind them, that isn't known. */
static uint64_t count_saved(struct session *session)
{
    bool has_left = false;
    bool is_known = !session->has_ended || (sam_server_is_done(session->server, &has_left) == SAM_OK && has_left);

    return is_known ? count_of(session, sam_server_received) : UINT64_MAX;
}

/* Does and saves what the terminal has sent behind the texts that were saved for the end, before it hears that this has come. What can't be
 * saved the journal keeps. Behind its leaving there is none: what was cut last would only be saved again. */
static void save_late(struct session *session, uint64_t *saved)
{
    uint64_t received = count_of(session, sam_server_received);

    if (session->ending == FAULT || session->ending == LEFT || received == *saved)
        return;
    *saved = received;
    (void)take_turns(session);
    if (!save_changed(session) && (writes_records(&session->journal) || complete_journal(session))) {
        session->is_kept = true;
        add_number_entry(session, ENTRY_ENDED, STATUS_LOST);
    }
    record_copies(session);
    session->due.is_waiting = false;
}

/* Puts the last message, and keeps it until the terminal has acknowledged it: for a while where that has left, and for a moment where it
 * may not know. */
static void say_the_end(struct session *session, const sigset_t *mask, int status, bool has_left)
{
    bool was_signalled = is_signalled(), was_to_end = session->is_to_end;
    uint64_t wanted = 0, saved = count_saved(session);
    int tries = 0;
    bool is_awaited = has_left || (session->has_streams && !was_signalled);
    int64_t until = now() + (is_awaited ? LONGEST_END : session->line >= 0 ? UNASKED_END : 0);

    session->longest_alone = -1;
    session->due.is_waiting = false; /* all is saved */
    session->is_done = false;        /* nothing is done any more, so what stands in its way goes out */
    while (session->is_named && now() < until && is_signalled() == was_signalled && session->is_to_end == was_to_end) {
        put_last_message(session, status);
        take_no_more(session);
        save_late(session, &saved);
        send_all(session);
        if (wanted == 0 && has_sent_all(session))
            wanted = count_of(session, sam_server_put_count);
        if (has_heard_all(session, wanted) || (session->has_streams && wanted == 0 && !is_tried_again(ENOMEM, &tries)))
            return;
        carry(session, mask, wanted > 0 ? until - now() : PAUSE);
    }
}

/* Whether the session is to stay in its folder: a signal has come, its terminal has not left, and it has a journal. */
static bool is_kept_at(const struct session *session, enum ending ending)
{
    return ending == INPUT_ENDED && is_signalled() && !session->is_to_end && session->is_named && takes_records(&session->journal);
}

/* Saves the texts aside, and has the journal be on the disk, so that another samhost can go on. Returns whether that is so. What the
 * journal can't take of this the terminal doesn't hear: the other samhost goes on as after a kill. */
static bool keep_session(struct session *session)
{
    session->is_kept = writes_records(&session->journal) && is_home_whole(session);
    (void)save_changed(session); /* what can't be saved is in the journal */
    record_copies(session);
    settle(session);
    bool has_all = complete_journal(session);
    session->is_kept |= has_all;
    if (has_all)
        write_line(session);
    if (session->is_kept)
        drop_line(session);
    return session->is_kept;
}

/* Saves the texts aside. Where a text can't be saved the folder stays, since the journal has that, or an earlier state of it. Returns the
 * exit status. */
static int end_for_good(struct session *session)
{
    session->is_kept = writes_records(&session->journal); /* until all is saved */
    int status = close_session(session, session->ending);
    session->is_kept = status == STATUS_LOST && !session->has_streams && (complete_journal(session) || has_journal(&session->home));
    if (session->is_kept)
        say("the journal of session %s stays: samhost --end %s tries again to save what it has", session->home.name, session->home.name);
    return status;
}

int stay_and_serve(struct session *session)
{
    sigset_t mask;
    int status = STATUS_OK;

    set_signals(&mask);
    session->begun = session->alone_since = now();
    if (!session->has_ended) /* before any terminal comes: what another samhost was asked for, and had not done */
        session->ending = take_turns(session);
    send_all(session);      /* the welcome of a terminal that has taken the session over: it may say nothing before */
    if (session->has_ended) /* another samhost has done all but to wait */
        status = session->is_kept ? STATUS_LOST : STATUS_OK;
    else {
        session->ending = serve_line(session, &mask);
        for (size_t tag = 1, tags = count_tags(session); tag < tags; tag++)
            report_closing(session, (uint16_t)tag);
        if (is_kept_at(session, session->ending) && keep_session(session))
            return STATUS_OK;
        status = end_for_good(session);
        if (session->ending == FAULT)
            (void)begin_server_again(session); /* else the terminal finds no session */
    }
    record_copies(session);
    say_the_end(session, &mask, status, session->ending != INPUT_ENDED);
    drop_line(session);
    return status;
}
