/* session_takeovers.h: another terminal takes the texts of a session over (sessions.c). */
#ifndef SESSION_TAKEOVERS_H
#define SESSION_TAKEOVERS_H

#include "session_user.h"
#include "session_wire.h"

enum { LONGEST = 40000 }; /* milliseconds that pass at once */

static bool has_takeovers, has_marks;
static struct meeting takeovers = {"takeovers", 0}, lost_takeovers = {"takeovers that a crash undid", 0};

/* The names of files, by their tags. */
static const char *const names[MOST_FILES] = {"", "first", "second", "lines", "third", "fourth", "fifth", "sixth"};

/* The server of another session begins with this one's texts, once nothing is left to be done. */
static void make_heir(sam_server *heir, const uint8_t *id)
{
    sam_status status;
    while ((status = met(sam_server_heir(&host->server, id, heir))) != SAM_OK) {
        WANT(status == SAM_NO_MEMORY || status == SAM_WAITING || status == SAM_SERVER_EFFECT_WAITS, 1);
        finish_turn();
        if (status == SAM_SERVER_EFFECT_WAITS) {
            keep_all();
            do_effects(has_marks);
        }
    }
}

/* The heir's files are these ones' names and texts, which the user's program and the editor without a network begin with. */
static void begin_with_heir(struct host_program *old)
{
    uint8_t name[SAM_MOST_NAME_BYTES], other_name[sizeof name];
    size_t tags = 0, len = 0, other_len = 0;
    static struct text text;
    WANT(sam_server_tags(&old->server, &tags), SAM_OK);
    for (uint16_t tag = FIRST; tag < tags; tag++) {
        WANT(sam_server_name(&old->server, tag, name, sizeof name, &len), SAM_OK);
        WANT(sam_server_name(&host->server, tag, other_name, sizeof other_name, &other_len), SAM_OK);
        WANT(len == other_len && memcmp(name, other_name, len) == 0, 1);
        text_of_server(&old->server, &text, tag);
        text_of_server(&host->server, &front->copies[tag].whole, tag);
        note_saved(tag);
        WANT(is_same_text(&text, &front->copies[tag].whole), true);
        note_typed(text.runes, text.len, tag);
        if (is_known())
            join_local(names[tag], &text);
    }
    front->tags = (uint16_t)tags;
}

/* The session is over here: each task ends. */
static void end_tasks(void)
{
    front->is_over = true;
    spare_memory(true);
    go_on();
    spare_memory(false);
    for (uint32_t number = 1; number <= front->task; number++)
        WANT(front->tasks[number].kind, 0);
    WANT(front->told >= front->request, 1);
    no_line_is_open();
}

/* The terminal of the session before connects, and is refused. */
static void refuse_older(struct front *older)
{
    uint8_t hello[SAM_LINK_HELLO_BYTES], answer[SAM_LINK_HELLO_BYTES];
    size_t count = 0;
    uint64_t attempt = 0;
    sam_status status, told;
    for (uint32_t tick = SAM_TICK_NOTHING; tick != SAM_TICK_CONNECT; older->now += tick == SAM_TICK_NOTHING ? LONGEST : 0)
        WANT(sam_client_tick(&older->client, older->now, &tick), SAM_OK);
    WANT(sam_client_connected(&older->client, older->now, &attempt), SAM_OK);
    WANT(sam_client_take_out(&older->client, attempt, hello, sizeof hello, &count), SAM_OK);
    WANT(count, sizeof hello);
    finish_turn();
    while ((status = met(sam_server_accept(&host->server, hello, sizeof hello))) == SAM_NO_MEMORY)
        ;
    WANT(status == SAM_LINK_NO_SESSION || status == SAM_LINK_OTHER_SESSION, 1);
    WANT(sam_link_write_refusal(status, hello, sizeof hello, answer), SAM_OK);
    while ((told = sam_client_receive(&older->client, attempt, answer, sizeof answer, older->now)) == SAM_NO_MEMORY)
        ;
    WANT(told, status);
}

/* It is told so until its session is over for it, too. It shows what it had, and each of its tasks ends. */
static void tell_older(struct front *older)
{
    sam_line_details line;
    do {
        refuse_older(older);
        WANT(sam_client_describe(&older->client, older->now, &line), SAM_OK);
    } while (line.state != SAM_LINE_LOST);
    struct front *newer = front;
    front = older;
    for (uint16_t tag = 0; tag < MOST_FILES; tag++)
        same_as_shown(tag);
    end_tasks();
    front = newer;
    WANT(sam_client_free(&older->client), SAM_OK);
}

/* The heir serves from now on: its journal has the place of the old one. */
static void serve_heir(struct host_program *other)
{
    struct host_program *old = host;
    host = other;
    keep_all();
    if (is_known()) {
        free_local();
        make_local();
    }
    memset(typed_in, 0, sizeof typed_in);
    begin_with_heir(old);
    WANT(sam_server_free(&old->server), SAM_OK);
    open_files();
}

/* Another terminal takes the texts over. A crash before the heir's journal has the place of the old one undoes that. */
static void take_over(void)
{
    struct front *older = front;
    struct host_program *other = host == host_programs ? host_programs + 1 : host_programs;
    uint8_t id[SAM_LINK_ID_BYTES];
    if (!has_takeovers)
        return;
    cut_wire();
    pick_bytes(id, sizeof id);
    make_heir(&other->server, id);
    if (one_in(4)) {
        WANT(sam_server_free(&other->server), SAM_OK);
        lost_takeovers.count++;
        return;
    }
    begin_program(other, id);
    front = front == fronts ? fronts + 1 : fronts;
    begin_front(id, true);
    was_marked = false;
    wire.has_older = false;
    serve_heir(other);
    tell_older(older);
    takeovers.count++;
}

#endif
