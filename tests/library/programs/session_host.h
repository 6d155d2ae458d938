/*
 * session_host.h: a durable server and its program, which keeps a journal in memory, does effects, and crashes. A call that wants memory is
 * made again; where memory was out behind the server's taking it, the work may wait. After a crash a server is made again of a front of the
 * journal's bytes that has all that was durable, of which some bytes behind that are turned.
 */
#ifndef SESSION_HOST_H
#define SESSION_HOST_H

#include "chance.h"
#include "met.h"
#include "short_memory.h"

enum { JOURNAL_ROOM = 1 << 23, MOST_RECORDS = 1 << 15, MOST_EFFECTS = 1 << 12, MOST_TRIES = 5, SPARE = 1 << 18 };
enum { RECORD_SAID = 4, RECORD_DONE = 7 }; /* the first bytes of the bodies of a message that the program said, and of an ending */

/* The faults that are planted to see whether they show. */
enum planted {
    NOTHING_PLANTED,
    EDIT_FORGOTTEN,  /* the plain text misses an edit */
    SPLICE_LEFT_OUT, /* the editor lets stand what the host took out */
    NOTE_UNKNOWN,    /* the user's program puts a message that the test doesn't know of */
    BYTES_TWICE,     /* a connection brings some bytes twice */
    BYTES_DROPPED,   /* a connection loses some bytes and goes on */
    RECORD_LOST,     /* a crash loses a record that was durable */
    RECORDS_SWAPPED, /* a crash swaps two records */
    EFFECT_SKIPPED,  /* an effect is said to be done that was not */
    REQUEST_UNTOLD,  /* the user's program doesn't hear of a request */
    LINE_UNTOLD,     /* nor of a command line that has run */
    TASK_UNTOLD,     /* nor of the end of a task */
    WRITE_UNKNOWN,   /* a file is written that nobody asked for */
    MEMORY_KEPT,     /* some memory is never given back */
    MEMORY_HOARDED,  /* much memory is held */
    ALL_PLANTED
};
static enum planted planted;
static bool was_marked; /* a file was marked as dirty in this session */

/* An effect that was handed out, or one that should be: the sum of the text or message. A message that asks for something has its kind. */
struct effect {
    sam_effect_kind kind;
    uint16_t tag;
    uint64_t sum;
    uint8_t asks;
    uint32_t request;
};

/* The bytes of a journal, of which the first `durable` survive a crash, and where the bodies of its records are. */
struct journal {
    uint8_t bytes[JOURNAL_ROOM];
    size_t len, durable;
    struct {
        size_t body, len;
    } records[MOST_RECORDS];
    size_t count, durable_count;
    uint64_t random;
};

/* A server with its program. */
struct host_program {
    sam_server server;
    uint8_t id[SAM_LINK_ID_BYTES];
    bool is_unfinished; /* what was taken last waits for memory */
    struct journal journal;
    struct effect effects[MOST_EFFECTS]; /* all that were handed out, of which the first `done` are done */
    size_t effect_count, done;
};
static struct host_program host_programs[2];
static struct host_program *host = host_programs;
static struct meeting unfinished = {"turns that wait for memory", 0}, torn = {"torn journals", 0}, failed_writes = {"failed writes", 0},
                      answers = {"answers", 0};

/* The call is made until memory for it was there. */
#define DONE(call)                                                                                                                         \
    do {                                                                                                                                   \
        sam_status done_by;                                                                                                                \
        while ((done_by = (call)) == SAM_NO_MEMORY)                                                                                        \
            ;                                                                                                                              \
        want(#call, __LINE__, met(done_by), SAM_OK);                                                                                       \
    } while (0)

/* ---- What the server takes ---- */

/* The server ends what it took last. */
static void finish_turn(void)
{
    while (host->is_unfinished) {
        sam_status status = sam_server_go_on(&host->server);
        host->is_unfinished = status == SAM_UNFINISHED;
        WANT(host->is_unfinished || status == SAM_OK, 1);
    }
}

/* The server has taken something, or refuses it by this status. Where memory is out the rest may wait: nothing else is taken then. */
static void took(const char *what, int line, sam_status status, sam_status should)
{
    if (status != SAM_UNFINISHED) {
        want(what, line, met(status), should);
        return;
    }
    host->is_unfinished = true;
    unfinished.count++;
    WANT(met(sam_server_acknowledge(&host->server)), SAM_WAITING);
    if (pick(2))
        finish_turn();
}
#define TAKES_WITH(call, should)                                                                                                           \
    do {                                                                                                                                   \
        sam_status done_by;                                                                                                                \
        finish_turn();                                                                                                                     \
        while ((done_by = (call)) == SAM_NO_MEMORY)                                                                                        \
            ;                                                                                                                              \
        took(#call, __LINE__, done_by, should);                                                                                            \
    } while (0)
#define TAKES(call) TAKES_WITH(call, SAM_OK)

/* ---- The journal ---- */

/* The next record comes to the journal. Returns whether there was one. */
static bool keep_record(void)
{
    struct journal *journal = &host->journal;
    uint8_t *body = journal->bytes + journal->len + SAM_RECORD_FRONT_BYTES;
    size_t len = 0;
    sam_record_frame frame;
    WANT(journal->len + SPARE < JOURNAL_ROOM && journal->count < MOST_RECORDS, 1);
    sam_status status = sam_server_next_record(&host->server, body, SPARE - sizeof frame.front - sizeof frame.back, &len);
    if (status == SAM_NONE)
        return false;
    WANT(status, SAM_OK);
    WANT(sam_journal_frame(journal->random, journal->count, journal->durable, body, len, &frame), SAM_OK);
    memcpy(body - sizeof frame.front, frame.front, sizeof frame.front);
    memcpy(body + len, frame.back, sizeof frame.back);
    journal->records[journal->count].body = (size_t)(body - journal->bytes);
    journal->records[journal->count++].len = len;
    journal->len = (size_t)(body - journal->bytes) + len + sizeof frame.back;
    return true;
}

/* All records of the journal are durable. */
static void sync_journal(void)
{
    struct journal *journal = &host->journal;
    WANT(sam_server_durable(&host->server, journal->count - journal->durable_count), SAM_OK);
    journal->durable = journal->len;
    journal->durable_count = journal->count;
}

/* Some records come to the journal, and perhaps to the disk. */
static void keep(void)
{
    while (!one_in(10) && keep_record())
        ;
    if (pick(5) < 3)
        sync_journal();
}

static void keep_all(void)
{
    finish_turn();
    while (keep_record())
        ;
    sync_journal();
}

static void begin_journal(struct journal *journal)
{
    journal->random = (uint64_t)pick(UINT32_MAX) << 32 | pick(UINT32_MAX);
    journal->len = journal->durable = SAM_JOURNAL_HEAD_BYTES;
    journal->count = journal->durable_count = 0;
    WANT(sam_journal_head(journal->random, journal->bytes), SAM_OK);
}

/* How many records of the journal have this kind. */
static size_t count_records(uint8_t kind)
{
    const struct journal *journal = &host->journal;
    size_t count = 0;
    for (size_t i = 0; i < journal->count; i++)
        count += journal->bytes[journal->records[i].body] == kind;
    return count;
}

/* ---- Crashes ---- */

/* A front of the journal is left, with all that was durable. What stands behind that may be turned. */
static void tear(struct journal *journal)
{
    size_t least = journal->durable, count_least = journal->durable_count;
    if (planted == RECORD_LOST && journal->durable_count > 0)
        least = count_least = 0, journal->len = journal->records[journal->durable_count - 1].body;
    size_t left = planted == RECORD_LOST ? journal->len : least + pick((uint32_t)(journal->len - least) + 1), end = 0;
    uint64_t random = 0, count = 0;
    if (left > least && one_in(3))
        journal->bytes[least + pick((uint32_t)(left - least))] ^= (uint8_t)(1 + pick(255));
    WANT(sam_journal_read(journal->bytes, left, &random, &count, &end), SAM_OK);
    WANT(random == journal->random && end >= least && end <= left && count >= count_least && count <= journal->count, 1);
    torn.count += end < left;
    journal->len = journal->durable = end;
    journal->count = journal->durable_count = (size_t)count;
}

/* The place of a record in the journal, as it is read after a crash. */
static size_t record_at(size_t number)
{
    size_t last = host->journal.count - 1;
    return planted == RECORDS_SWAPPED && last > 8 && (number == last || number == last - 1) ? 2 * last - 1 - number : number;
}

/* Takes each record of the journal again, and makes the server. SAM_NO_MEMORY if memory was out. */
static sam_status take_again(sam_recovery *recovery)
{
    const struct journal *journal = &host->journal;
    size_t place = SAM_JOURNAL_HEAD_BYTES;
    sam_status status = sam_recovery_new(recovery, host->id);
    for (size_t i = 0; i < journal->count && status == SAM_OK; i++) {
        sam_record record;
        WANT(sam_journal_next(journal->bytes, journal->len, place, journal->random, i, &record), SAM_OK);
        WANT(record.body == journal->records[i].body && record.len == journal->records[i].len, 1);
        place = record.next;
        size_t at = record_at(i);
        status = sam_recovery_take(recovery, journal->bytes + journal->records[at].body, journal->records[at].len);
    }
    if (status == SAM_OK)
        DONE(sam_recovery_finish(recovery, &host->server));
    WANT(sam_recovery_free(recovery), SAM_NO_HANDLE);
    return status;
}

/* The program is killed, and begins again with what the journal has. Where memory is out it begins anew, after some times with enough. */
static void crash_host(void)
{
    sam_recovery recovery = SAM_RECOVERY_INIT;
    sam_status status = SAM_NO_MEMORY;
    WANT(sam_server_free(&host->server), SAM_OK);
    host->is_unfinished = false;
    tear(&host->journal);
    for (int tries = 1; status == SAM_NO_MEMORY; tries++) {
        spare_memory(tries > MOST_TRIES);
        status = met(take_again(&recovery));
    }
    spare_memory(false);
    WANT(status, SAM_OK);
    host->done = count_records(RECORD_DONE);
}

/* ---- Effects ---- */

/* The text of a server's file. */
static void text_of_server(sam_server *server, struct text *text, uint16_t tag)
{
    static uint8_t bytes[MOST_RUNE_BYTES * MOST_KEPT];
    size_t len = 0;
    uint32_t runes = 0, all = 0;
    WANT(sam_server_text(server, tag, 0, bytes, sizeof bytes, &len, &runes), SAM_OK);
    WANT(sam_server_len(server, tag, &all), SAM_OK);
    read_text(text, bytes, len);
    WANT(text->len == runes && runes == all, 1);
}

/* What a message asks for, with its request and its file, by the table of docs/reference/SESSION.md. */
static void read_message(struct effect *effect, const uint8_t *bytes, size_t len)
{
    bool has_tag = len == 7 && (bytes[0] == SAM_NOTE_RELOAD || bytes[0] == SAM_NOTE_WRITE),
         has_path = len >= 7 && bytes[0] <= SAM_NOTE_COMPLETE && len == 7U + ((unsigned)bytes[5] << 8 | bytes[6]);
    if (!has_tag && !has_path)
        return;
    effect->asks = bytes[0];
    effect->request = (uint32_t)bytes[1] << 24 | (uint32_t)bytes[2] << 16 | (uint32_t)bytes[3] << 8 | bytes[4];
    effect->tag = has_tag ? (uint16_t)(bytes[5] << 8 | bytes[6]) : 0;
}

/* The request that this write answers: of the messages that ask for writes of the file, the oldest that no write before has answered; or 0. */
static uint32_t request_of_write(size_t write)
{
    const struct effect *effects = host->effects;
    size_t asked = 0, answered = 0;
    uint16_t tag = effects[write].tag;
    for (size_t i = 0; i < write; i++) {
        asked += effects[i].asks == SAM_NOTE_WRITE && effects[i].tag == tag;
        answered += effects[i].kind == SAM_EFFECT_WRITE && effects[i].tag == tag && answered < asked;
    }
    for (size_t i = 0; i < write && answered < asked; i++)
        if (effects[i].asks == SAM_NOTE_WRITE && effects[i].tag == tag && answered-- == 0)
            return effects[i].request;
    return 0;
}

/* The program answers a request by a message, which has some fields behind the request. */
static void answer_request(uint8_t kind, uint32_t request, const uint8_t *fields, size_t len)
{
    uint8_t bytes[32] = {kind, (uint8_t)(request >> 24), (uint8_t)(request >> 16), (uint8_t)(request >> 8), (uint8_t)request};
    memcpy(bytes + 5, fields, len);
    TAKES(sam_server_say(&host->server, bytes, 5 + len));
}

static void answer_message(const struct effect *message)
{
    static const uint8_t kinds[] = {0, SAM_NOTE_OPENED, SAM_NOTE_NAMES, SAM_NOTE_ANEW}, lens[] = {0, 2, 3, 8}, none[8];
    if (message->asks == 0 || message->asks == SAM_NOTE_WRITE)
        return;
    if (one_in(3))
        answer_request(SAM_NOTE_REFUSED, message->request, none, 3);
    else
        answer_request(kinds[message->asks], message->request, none, lens[message->asks]);
    answers.count++;
}

static void answer_write(uint32_t request, uint16_t tag, bool fails)
{
    const uint8_t fields[] = {(uint8_t)(tag >> 8), (uint8_t)tag, 0, 0, 0, 0, 0, 0, 0};
    answer_request(fails ? SAM_NOTE_NOT_SAVED : SAM_NOTE_SAVED, request, fields, sizeof fields);
    answers.count++;
}

/* What the effect is about. */
static struct effect read_effect(const sam_effect *effect)
{
    static uint8_t bytes[MOST_RUNE_BYTES * MOST_KEPT];
    size_t len = 0;
    uint32_t runes = 0, all = 0;
    if (effect->kind == SAM_EFFECT_WRITE) {
        WANT(sam_server_saved(&host->server, effect->tag, 0, bytes, sizeof bytes, &len, &runes), SAM_OK);
        WANT(sam_server_saved_len(&host->server, effect->tag, &all), SAM_OK);
        WANT(runes, all);
    } else if (effect->kind == SAM_EFFECT_HEAR) {
        WANT(sam_server_heard(&host->server, bytes, sizeof bytes, &len), SAM_OK);
        WANT(len, effect->len);
    } else {
        WANT(effect->kind, SAM_EFFECT_CLOSE);
        WANT(sam_server_closed_text(&host->server, bytes, sizeof bytes, &len), SAM_OK);
        WANT(len, effect->len);
    }
    struct effect read = {.kind = effect->kind, .tag = effect->tag, .sum = sum_of(bytes, len)};
    if (effect->kind == SAM_EFFECT_HEAR)
        read_message(&read, bytes, len);
    return read;
}

static bool is_same_effect(const struct effect *one, const struct effect *other)
{
    return one->kind == other->kind && one->tag == other->tag && one->sum == other->sum;
}

/* The program says what became of an effect. A write may have failed, where the test looks at no marks. */
static void end_effect(const sam_effect *effect, const struct effect *read, bool may_fail)
{
    char words[24];
    uint32_t request = effect->kind == SAM_EFFECT_WRITE ? request_of_write(host->done) : 0;
    bool fails = may_fail && effect->kind == SAM_EFFECT_WRITE && one_in(3);
    int len = snprintf(words, sizeof words, "%s %u", fails ? "failed" : "done", (unsigned)effect->tag);
    if (fails) {
        failed_writes.count++;
        was_marked = true;
        TAKES(sam_server_mark_dirty(&host->server, effect->tag));
    }
    if (read->request != 0)
        answer_message(read);
    else if (request != 0)
        answer_write(request, effect->tag, fails);
    else if (effect->kind == SAM_EFFECT_WRITE)
        TAKES(sam_server_say(&host->server, (const uint8_t *)words, (size_t)len));
    TAKES(sam_server_effect_done(&host->server, fails));
}

/* The program does what the server asks it to do. After a crash an effect may come again, as it was. */
static void do_effects(bool may_fail)
{
    sam_effect effect;
    for (finish_turn(); sam_server_next_effect(&host->server, &effect) == SAM_OK; finish_turn()) {
        struct effect read = read_effect(&effect);
        if (planted == EFFECT_SKIPPED && one_in(8))
            read.sum++;
        if (host->done == host->effect_count) {
            WANT(host->effect_count < MOST_EFFECTS, 1);
            host->effects[host->effect_count++] = read;
        }
        WANT(is_same_effect(&read, &host->effects[host->done]), true);
        if (one_in(5))
            return; /* a crash may come before it is done */
        end_effect(&effect, &read, may_fail);
        host->done++;
    }
}

/* ---- Beginning ---- */

/* A file joins, under the next tag, which is handed out. */
static uint16_t join_host(const char *name, const struct text *text)
{
    static uint8_t bytes[MOST_RUNE_BYTES * MOST_KEPT];
    size_t tags = 0;
    uint16_t tag = 0;
    WANT(sam_server_tags(&host->server, &tags), SAM_OK);
    size_t len = spell(text->runes, text->len, bytes);
    TAKES(sam_server_add_file(&host->server, (const uint8_t *)name, strlen(name), bytes, len, &tag));
    WANT(tag == 0 || tag == tags, 1);
    return (uint16_t)tags;
}

/* A program whose server is made beside it, with an empty journal. */
static void begin_program(struct host_program *program, const uint8_t *id)
{
    memcpy(program->id, id, sizeof program->id);
    program->is_unfinished = false;
    program->effect_count = program->done = 0;
    begin_journal(&program->journal);
}

#endif
