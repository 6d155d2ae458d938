/* journal.c: what a session that stays has done, in a file that only grows, so that another samhost can be the very same one.
 *
 * Its bytes are those of the library's journals (sulgrevad.h), whose clauses say what is read of them after a crash. A record has what a
 * turn made: records of the library's server, which alone decide what that is, and what samhost knows beside it. Numbers have the highest
 * byte first.
 *
 * What the server took goes out once it is durable: the disk has it. So what a power cut takes nobody has heard of. Each record says how
 * much was on the disk when it was made, and an empty one is added after each sync to say so: what is wrong before that is damage, and what
 * is wrong behind it is torn.
 *
 * Memory has what the disk may lack: all since the last sync. Where the file can't be written any more it gets another name, since no
 * session goes on from one that lacks a step, and from time to time that is written once more, from the same place on. Then it has its name
 * again. Where samhost is killed before, the texts that it has are saved aside. Where the session is kept the file keeps its name: no step
 * comes any more.
 */
#define _GNU_SOURCE
#include <errno.h>
#include <fcntl.h>
#include <stdio.h> /* renameat */
#include <stdlib.h>
#include <sys/mman.h>
#include <sys/random.h>
#include <sys/stat.h>
#include <sys/uio.h>
#include <time.h>
#include <unistd.h>

#include "journal/journal.h"
#include "disk/errors.h"
#include "journal/journal_records.h"
#include "net/event_loop.h"
#include "session/home_keeper.h"
#include "session/session.h"

enum {
    MOST_BODY = 1 << 26,     /* bytes of the body of a record */
    MOST_HELD = 1 << 26,     /* bytes of records that wait for a file which can't be written */
    MOST_UNSYNCED = 1 << 22, /* bytes behind which there is a sync while more is to come */
    FIRST_PAUSE = 1000,      /* milliseconds until a journal is tried again; each time that fails, twice as many, up to: */
    LONGEST_PAUSE = 30000,
    MOST_BEHIND = 1 << 26, /* bytes behind the whole records in which others are looked for */
    RENEWALS = 72          /* how often the time is renewed, while a terminal is there, in as long as the session may be alone */
};

/* ---- Writing ---- */

/* Writes of what the disk may lack all that the file lacks. */
static int write_held(struct journal *journal)
{
    struct body *held = &journal->held;

    while (journal->written < held->len) {
        struct iovec part = {held->bytes + journal->written, held->len - journal->written};
        ssize_t count = writev(journal->file, &part, 1);
        if (count < 0 && errno != EINTR)
            return errno;
        journal->written += count > 0 ? (size_t)count : 0;
    }
    return 0;
}

/* Has it be on the disk. */
static int flush(struct journal *journal)
{
    int error = write_held(journal);

    if (error == 0 && fdatasync(journal->file) != 0)
        error = errno;
    if (error != 0)
        return error;
    journal->end.durable = journal->end.at;
    free(journal->held.bytes);
    journal->held = (struct body){0};
    journal->written = 0;
    return 0;
}

void close_journal(struct journal *journal)
{
    close_file(&journal->file);
    free(journal->held.bytes);
    free(journal->turn.bytes);
    *journal = (struct journal){.file = -1, .lost = journal->lost, .end = journal->end, .in_turn = journal->in_turn};
}

void drop_turn(struct journal *journal)
{
    journal->turn.len = journal->in_turn = 0;
}

/* No session goes on from the journal that is there, unless this one is kept, or the folder may be another samhost's. */
static void lay_aside(struct session *session)
{
    const struct home *home = &session->home;
    bool may_move = !session->is_kept && has_lock(home);
    bool is_moved = may_move && renameat(home->folder, JOURNAL, home->folder, UNFINISHED_JOURNAL) == 0;

    if (is_moved && session->journal.state == IN_PLACE)
        session->journal.state = UNFINISHED;
    (void)sync_home(home); /* else a power cut could give it its name again */
}

void hold_journal(struct session *session, int error)
{
    struct journal *journal = &session->journal;

    journal->is_held = true;
    journal->pause = FIRST_PAUSE;
    journal->due = now() + FIRST_PAUSE;
    journal->lost = error;
    lay_aside(session);
}

/* A record is missing, so none is added any more. Unless the session is kept, there is no whole journal then, and none comes back. */
static void end_journal(struct session *session, int error)
{
    if (!session->journal.is_held)
        hold_journal(session, error);
    close_journal(&session->journal);
}

/* Makes room in a body. Returns whether there is memory for that: else it lacks nothing yet. */
static bool has_room_in(struct body *body, size_t more)
{
    bool has_some = has_room(body, more);

    body->is_short &= has_some;
    return has_some;
}

/* Adds the next record, of this body, to what the disk may lack. */
static int add_record(struct journal *journal, const uint8_t *body, size_t len)
{
    struct body *held = &journal->held;
    sam_record_frame frame;

    if (len > MOST_BODY || sam_journal_frame(journal->random, journal->end.number, journal->end.durable, body, len, &frame) != SAM_OK)
        return EFBIG;
    if ((journal->is_held && held->len + sizeof frame + len > MOST_HELD) || !has_room_in(held, sizeof frame + len))
        return ENOMEM;
    add_raw(held, frame.front, sizeof frame.front);
    add_raw(held, body, len);
    add_raw(held, frame.back, sizeof frame.back);
    journal->end.number++;
    journal->end.at += sizeof frame + len;
    return 0;
}

/* Puts the entries of a turn into a record, and counts those of the server. Returns whether there is memory for it: else they wait. */
static bool put_turn(struct session *session, size_t *count)
{
    struct journal *journal = &session->journal;
    bool takes = takes_records(journal);

    if (takes && !has_room_in(&journal->held, sizeof(sam_record_frame) + journal->turn.len))
        return false;
    int error = takes ? add_record(journal, journal->turn.bytes, journal->turn.len) : 0;
    *count += journal->in_turn;
    drop_turn(journal);
    if (error != 0)
        end_journal(session, error);
    return true;
}

bool writes_records(const struct journal *journal)
{
    return journal->file >= 0 && !journal->is_held;
}

bool takes_records(const struct journal *journal)
{
    return journal->file >= 0 || journal->is_held;
}

bool has_room_for_number(struct journal *journal)
{
    return !takes_records(journal) || has_room_in(&journal->turn, ENTRY_HEAD + sizeof(uint64_t));
}

void add_number_entry(struct session *session, enum entry kind, uint64_t number)
{
    struct body *turn = &session->journal.turn;

    if (!takes_records(&session->journal))
        return;
    add_entry_head(turn, kind, sizeof number);
    add_number(turn, number);
    if (turn->is_short)
        end_journal(session, ENOMEM);
}

void add_entry(struct session *session, enum entry kind, struct body *body)
{
    struct body *turn = &session->journal.turn;

    if (takes_records(&session->journal)) {
        if (kind == ENTRY_START)
            add_raw(turn, &(uint8_t){ENTRY_START}, 1);
        else
            add_entry_head(turn, kind, body->len);
        add_raw(turn, body->bytes, body->len);
        if (body->is_short || turn->is_short)
            end_journal(session, ENOMEM);
    }
    free(body->bytes);
}

/* Takes records of the server into the next one, up to MOST_IN_TURN. Returns whether there was memory for them: the others stay with the
 * server. */
static bool gather(struct session *session)
{
    struct journal *journal = &session->journal;
    struct body *turn = &journal->turn;
    size_t len;

    while (turn->len < MOST_IN_TURN && sam_server_record_len(session->server, &len) == SAM_OK) {
        if (!has_room_in(turn, ENTRY_HEAD + len))
            return false;
        if (sam_server_next_record(session->server, turn->bytes + turn->len + ENTRY_HEAD, len, &len) != SAM_OK)
            return false; /* can't be: there is room */
        add_entry_head(turn, ENTRY_SERVER, len);
        turn->len += len;
        journal->in_turn++;
    }
    return true;
}

/* Adds an empty record, which says how much is on the disk. It may be missing after a power cut. */
static void mark_synced(struct session *session)
{
    struct journal *journal = &session->journal;
    int error = add_record(journal, NULL, 0) == 0 ? write_held(journal) : 0;

    if (error != 0)
        hold_journal(session, error);
}

void sync_journal(struct session *session)
{
    int error = writes_records(&session->journal) ? flush(&session->journal) : 0;

    if (error != 0)
        hold_journal(session, error);
    else if (writes_records(&session->journal))
        mark_synced(session);
}

void settle(struct session *session)
{
    struct journal *journal = &session->journal;
    size_t count = 0;
    bool has_some = false;

    while (!session->is_done && gather(session) && (journal->turn.len > 0 || journal->in_turn > 0) && put_turn(session, &count)) {
        has_some = true;
        if (journal->held.len > MOST_UNSYNCED)
            sync_journal(session);
    }
    if (!has_some)
        return;
    sync_journal(session);
    (void)!sam_server_durable(session->server, count); /* where it can't be on the disk the terminal is told */
}

bool is_settled(struct session *session)
{
    const struct journal *journal = &session->journal;
    size_t len;

    return journal->turn.len == 0 && journal->in_turn == 0 && sam_server_record_len(session->server, &len) != SAM_OK;
}

/* ---- The file ---- */

void make_journal(struct session *session)
{
    struct journal *journal = &session->journal;
    uint8_t head[SAM_JOURNAL_HEAD_BYTES];

    *journal = (struct journal){.file = -1, .end = first_record()};
    if (getrandom(&journal->random, sizeof journal->random, 0) != sizeof journal->random ||
        sam_journal_head(journal->random, head) != SAM_OK || !has_room_in(&journal->held, sizeof head)) {
        end_journal(session, errno);
        return;
    }
    add_raw(&journal->held, head, sizeof head);
    int error = make_in_home(&session->home, NEW_JOURNAL, O_RDWR | O_TRUNC | O_APPEND, &journal->file);
    if (error == 0)
        error = write_held(journal);
    if (error != 0)
        hold_journal(session, error);
}

/* The name that the file of a journal has. */
static const char *name_of_file(const struct journal *journal)
{
    return journal->state == IN_PLACE ? JOURNAL : journal->state == NEW ? NEW_JOURNAL : UNFINISHED_JOURNAL;
}

int place_journal(struct session *session)
{
    struct journal *journal = &session->journal;
    const struct home *home = &session->home;

    if (journal->state != IN_PLACE && renameat(home->folder, name_of_file(journal), home->folder, JOURNAL) != 0)
        return errno;
    journal->state = IN_PLACE;
    int error = sync_home(home);
    if (error == 0)
        (void)unlinkat(home->folder, UNFINISHED_JOURNAL, 0);
    return error;
}

bool has_whole_journal(const struct home *home)
{
    return faccessat(home->folder, JOURNAL, F_OK, 0) == 0 || errno != ENOENT;
}

bool has_journal(const struct home *home)
{
    return has_whole_journal(home) || faccessat(home->folder, UNFINISHED_JOURNAL, F_OK, 0) == 0 || errno != ENOENT;
}

/* Opens the journal; where it isn't there, the one that could not be written to its end. */
static int open_in(const struct home *home, int flags, bool *is_unfinished)
{
    int file = openat(home->folder, JOURNAL, flags | O_NOFOLLOW | O_CLOEXEC);

    *is_unfinished = file < 0 && errno == ENOENT;
    return *is_unfinished ? openat(home->folder, UNFINISHED_JOURNAL, flags | O_NOFOLLOW | O_CLOEXEC) : file;
}

int map_records(int file, struct text *all)
{
    struct stat status;

    *all = (struct text){0};
    if (fstat(file, &status) != 0)
        return errno;
    if (!S_ISREG(status.st_mode) || status.st_uid != geteuid())
        return EPERM;
    if (status.st_size < SAM_JOURNAL_HEAD_BYTES)
        return 0;
    void *bytes = mmap(NULL, (size_t)status.st_size, PROT_READ, MAP_PRIVATE, file, 0);
    if (bytes == MAP_FAILED)
        return errno;
    *all = (struct text){bytes, (size_t)status.st_size};
    return 0;
}

/* Reads the head alone: its records are read one by one. */
static sam_status read_head(const struct text *all, uint64_t *random)
{
    uint64_t count;
    size_t end;

    return sam_journal_read(all->bytes, all->len < SAM_JOURNAL_HEAD_BYTES ? 0 : SAM_JOURNAL_HEAD_BYTES, random, &count, &end);
}

int open_journal(struct session *session, struct text *all, sam_status *head, bool *is_unfinished)
{
    int file = open_in(&session->home, O_RDWR | O_APPEND, is_unfinished);

    *all = (struct text){0};
    *head = SAM_JOURNAL_SHORT;
    if (file < 0)
        return errno;
    session->journal = (struct journal){.file = file, .state = *is_unfinished ? UNFINISHED : IN_PLACE};
    int error = map_records(file, all);
    if (error == 0)
        *head = read_head(all, &session->journal.random);
    return error;
}

struct record_place first_record(void)
{
    return (struct record_place){.at = SAM_JOURNAL_HEAD_BYTES};
}

bool next_record(const struct text *all, uint64_t random, struct record_place *place, struct record *record)
{
    const size_t most = sizeof(sam_record_frame) + MOST_BODY; /* a longer one was never written, and isn't summed up */
    size_t len = all->len - place->at <= most ? all->len : place->at + most;
    sam_record found;

    if (sam_journal_next(all->bytes, len, place->at, random, place->number, &found) != SAM_OK)
        return false;
    *record = (struct record){.body = all->bytes + found.body, .len = found.len};
    *place = (struct record_place){found.next, place->number + 1, found.durable};
    return true;
}

bool is_journal_damaged(const struct text *all, size_t end)
{
    uint64_t random, count;

    if (end == all->len)
        return false;
    return all->len - end > MOST_BEHIND || sam_journal_read(all->bytes, all->len, &random, &count, &end) == SAM_JOURNAL_DAMAGED;
}

int cut_journal(struct session *session, size_t len)
{
    int file = session->journal.file;

    return ftruncate(file, (off_t)len) == 0 && fdatasync(file) == 0 ? 0 : errno;
}

void close_records(struct text *all)
{
    if (all->bytes != NULL)
        munmap(all->bytes, all->len);
    *all = (struct text){0};
}

/* ---- Written again ---- */

/* Copies so many first bytes of an open file into an empty one. */
static int copy_front(int from, int to, size_t len)
{
    uint8_t bytes[PIECE];

    for (size_t at = 0; at < len;) {
        ssize_t count = pread(from, bytes, len - at < PIECE ? len - at : PIECE, (off_t)at);
        ssize_t put = count > 0 ? write(to, bytes, (size_t)count) : count;
        if (put < count || count <= 0)
            return put < 0 ? errno : count > 0 ? ENOSPC : EIO;
        at += (size_t)count;
    }
    return 0;
}

/* Has the journal have a file in its folder, with what is on the disk and nothing behind that. */
static int renew_file(struct session *session)
{
    struct journal *journal = &session->journal;
    int file, error;

    if (is_in_home(&session->home, name_of_file(journal), journal->file))
        return ftruncate(journal->file, (off_t)journal->end.durable) == 0 ? 0 : errno;
    error = make_in_home(&session->home, NEW_JOURNAL, O_RDWR | O_TRUNC | O_APPEND, &file);
    if (error == 0 && journal->file >= 0)
        error = copy_front(journal->file, file, journal->end.durable);
    if (error == 0) {
        close_file(&journal->file);
        journal->file = file;
        journal->state = NEW;
    } else
        close_file(&file);
    return error;
}

/* Another samhost goes on with the session, so this one has no journal any more, and changes nothing in its folder. */
static void leave_folder(struct session *session)
{
    session->journal.lost = OTHER_HAS_IT;
    close_journal(&session->journal);
    close_home(&session->home);
}

bool complete_journal(struct session *session)
{
    struct journal *journal = &session->journal;

    if (!takes_records(journal) || (writes_records(journal) && is_home_whole(session)))
        return writes_records(journal);
    if (!journal->is_held)
        hold_journal(session, IS_REMOVED);
    journal->pause = 2 * journal->pause < LONGEST_PAUSE ? 2 * journal->pause : LONGEST_PAUSE;
    journal->due = now() + journal->pause;
    int error = mend_home(session);
    if (error == OTHER_HAS_IT) {
        leave_folder(session);
        return false;
    }
    if (error == 0)
        error = renew_file(session);
    if (error == 0) {
        journal->written = 0;
        error = flush(journal);
    }
    if (error == 0)
        error = place_journal(session);
    if (error != 0) {
        lay_aside(session); /* it may have its name, and lack steps as soon as more are held */
        return false;
    }
    journal->is_held = false;
    mark_synced(session);
    return writes_records(journal);
}

int64_t mending_is_due_in(const struct session *session)
{
    const struct journal *journal = &session->journal;
    int64_t left = journal->due - now();

    if (journal->lost != 0)
        return 0;
    return !journal->is_held && !journal->is_missed ? -1 : left > 0 ? left : 0;
}

/* Notices that somebody has removed the folder, or a file in it. It is left alone until that is done, unless another samhost could go on
 * from the journal meanwhile: then nothing is added to it. */
static void look_at_home(struct session *session)
{
    struct journal *journal = &session->journal;
    bool was_missed = journal->is_missed;

    journal->is_missed = writes_records(journal) && !is_home_whole(session);
    if (journal->is_missed && !was_missed)
        journal->due = now() + FIRST_PAUSE;
    if (journal->is_missed && (now() >= journal->due || !has_lock(&session->home)))
        hold_journal(session, IS_REMOVED);
}

void mend_journal(struct session *session)
{
    look_at_home(session);
    int error = session->journal.lost;

    session->journal.lost = 0;
    if (error != 0)
        tell(&(struct event){.kind = SAM_NOTE_NO_JOURNAL, .code = code_of(error)},
             "the journal can't be written: %s; if samhost ends unasked, the session ends with it", cause(error));
    if (mending_is_due_in(session) == 0 && complete_journal(session))
        say("the journal is written again");
}

/* ---- Left alone ---- */

void renew_time(const struct session *session)
{
    struct stat status;

    if (fstat(session->journal.file, &status) == 0 && time(NULL) - status.st_mtime > session->longest_alone / 1000 / RENEWALS)
        (void)futimens(session->journal.file, NULL);
}

bool is_left_alone(const struct home *home)
{
    struct stat status;
    struct text all = {0};
    struct record record = {.is_wrong = true};
    struct record_place first = first_record();
    struct start start = {.longest_alone = -1};
    uint64_t random;
    bool is_unfinished;
    int file = open_in(home, O_RDONLY, &is_unfinished);

    bool is_read = file >= 0 && fstat(file, &status) == 0 && map_records(file, &all) == 0 && read_head(&all, &random) == SAM_OK;
    bool is_known =
        is_read && next_record(&all, random, &first, &record) && take_byte(&record) == ENTRY_START && take_start(&record, &start);
    free(start.folder);
    close_records(&all);
    close_file(&file);
    return is_known && !record.is_wrong && start.longest_alone >= 0 && time(NULL) - status.st_mtime > start.longest_alone / 1000;
}
