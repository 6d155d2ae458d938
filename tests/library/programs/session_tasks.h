/* session_tasks.h: what the user has the host's program do, and what his windows show. */
#ifndef SESSION_TASKS_H
#define SESSION_TASKS_H

#include "session_front.h"

static struct meeting tasks_begun = {"tasks", 0}, shared_tasks = {"writes that are one task", 0}, windows = {"windows", 0};

static size_t requests_waiting(void)
{
    size_t count = 0;
    WANT(sam_client_requests(&front->client, &count), SAM_OK);
    return count;
}

/* A task has begun, with the next number. */
static void note_task(uint32_t number, uint8_t kind)
{
    WANT(number == front->task + 1 && number <= MOST_TASKS, 1);
    front->task = number;
    front->tasks[number].kind = kind;
    tasks_begun.count++;
}

/* ---- Messages ---- */

/* The message of a task is put, by the table of docs/reference/SESSION.md: its kind, its number, and a tag or a path. */
static void want_message(uint8_t kind, uint32_t number, const uint8_t *field, size_t len)
{
    uint8_t bytes[64] = {kind, (uint8_t)(number >> 24), (uint8_t)(number >> 16), (uint8_t)(number >> 8), (uint8_t)number};
    memcpy(bytes + 5, field, len);
    WANT(front->put_count < MOST_NOTES, 1);
    front->put[front->put_count++] = sum_of(bytes, 5 + len);
}

/* The host's program is to join a file, to complete a path, or to read a file anew. */
static void begin_task(void)
{
    uint8_t kind = (uint8_t)(SAM_NOTE_OPEN + pick(3)), path[32] = {0};
    uint16_t tag = kind == SAM_NOTE_RELOAD ? FIRST : 0;
    size_t len = kind == SAM_NOTE_RELOAD ? 0 : pick(sizeof path - 2);
    uint32_t number = 0;
    memset(path + 2, 'p', len);
    path[1] = kind == SAM_NOTE_RELOAD ? (uint8_t)tag : (uint8_t)len;
    DONE(sam_client_begin(&front->client, kind, tag, path + 2, len, front->now, &number));
    note_task(number, kind);
    want_message(kind, number, path, 2 + len);
}

/* ---- Writes ---- */

/* The number of the write of a file that waits, and that was asked for last. */
static uint64_t waiting_write(uint16_t tag)
{
    uint64_t number = front->request;
    while (number > front->told &&
           (front->requests[number % MOST_REQUESTS].kind != SAM_EVENT_WRITE || front->requests[number % MOST_REQUESTS].tag != tag))
        number--;
    WANT(number > front->told, 1);
    return number;
}

/* The write of this request has a task, too. */
static void share_write(uint64_t request, uint32_t task)
{
    size_t at = front->wanted_count;
    while (at > 0 && front->wanted_by[at - 1] != request)
        at--;
    WANT(at > 0 && front->wanted[at - 1].kind == SAM_EFFECT_WRITE, 1);
    if (front->wanted[at - 1].request != 0)
        WANT(front->wanted[at - 1].request, task);
    front->wanted[at - 1].request = task;
    shared_writes.count++;
}

/* Has a file be written, as a task. Returns its number, and whether it is a request of its own. */
static uint32_t write_as_task(uint16_t tag, bool *is_own)
{
    const sam_event event = {.kind = SAM_EVENT_WRITE, .tag = tag};
    uint32_t number = 0;
    size_t before = requests_waiting();
    sam_status status;
    while ((status = met(sam_client_write(&front->client, tag, &number))) != SAM_OK) {
        WANT(status == SAM_NO_MEMORY || status == SAM_WAITING, 1);
        if (status == SAM_WAITING)
            go_on(), before = requests_waiting();
    }
    asked[SAM_EVENT_WRITE]++;
    if (is_known())
        ask_local(&event, NULL, 0);
    if (number <= front->task) {
        WANT(front->tasks[number].kind, SAM_NOTE_WRITE);
        shared_tasks.count++;
    } else {
        note_task(number, SAM_NOTE_WRITE);
    }
    *is_own = requests_waiting() > before;
    if (*is_own) {
        front->request++;
        note_request(&event, 0);
    } else {
        share_write(waiting_write(tag), number);
    }
    return number;
}

/* A file that isn't there is to be written: its task ends with the refusal. */
static void write_wrongly(void)
{
    static uint16_t more; /* another one each time, so that the write is that of no other */
    bool is_own = false;
    write_as_task((uint16_t)(NO_SUCH_FILE + more++ % 1000), &is_own);
    WANT(is_own, true);
}

/* ---- Windows ---- */

/* A window shows some of a file, or none of it any more; or the user presses another key. */
static void see_file(void)
{
    uint16_t tag = pick_file();
    if (!has_windows || tag == 0)
        return;
    uint32_t start = pick(shown_len(tag) + 1);
    if (one_in(8)) {
        WANT(sam_client_forget(&front->client, tag), SAM_OK);
        front->copies[tag].is_seen = false;
    } else if (one_in(8)) {
        WANT(sam_client_rest(&front->client, front->now), SAM_OK);
    } else {
        DONE(sam_client_see(&front->client, tag, start, start + pick(60)));
        front->copies[tag].is_seen = true;
        windows.count++;
    }
}

/* Whether all of the files is loaded of which windows show something. */
static bool has_seen_all(void)
{
    uint32_t gap = 0;
    for (uint16_t tag = FIRST; tag < front->tags; tag++)
        if (front->copies[tag].is_seen && is_open(tag) && sam_client_first_gap(&front->client, tag, 0, &gap) == SAM_OK)
            return false;
    return true;
}

#endif
