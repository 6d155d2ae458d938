/*
 * Makes the calls of the native library that standard input tells of, and writes each answer to standard output: the status, what the
 * pointers lead to, and each buffer whole. calls.mjs makes the same calls of the module for web pages. calls.h, made of the header, has
 * `call`, which makes the call of a number.
 */
#include "sulgrevad.h"

#include <stdio.h>
#include <stdlib.h>
#include <string.h>

enum { RESET = 65535, REFUSE = 65534, CARRY = 65533, ASKED = 65532, ENDED = 65531, FILLER = 0xA5, TRIES = 3 };

struct lent {
    uint8_t *at;
    size_t length;
};

union out {
    uint8_t bytes[72];
    sam_did did;
    sam_state state;
    sam_file file;
    sam_note note;
    sam_record record;
    sam_record_frame frame;
    sam_line_details details;
    sam_splice splice;
    sam_put put;
    sam_turn turn;
    sam_client_event told;
    sam_effect effect;
    sam_changes changes;
    uint8_t u8;
    uint16_t u16;
    uint32_t u32;
    uint64_t u64;
    size_t size;
    bool truth;
    sam_status status;
};

/* Of each kind one that the calls use, and one that is empty most of the time. */
static sam_host hosts[2];
static sam_term terms[2];
static sam_overlay overlays[2];
static sam_link links[2]; /* both in use: an end of the terminal's side, and one of the host's */
static sam_line lines[2]; /* both in use */
static sam_client clients[2];
static sam_server servers[2];
static sam_recovery recoveries[2];
static uint64_t asked, refused_from, refused_to;

void *__real_malloc(size_t size);
void *__real_realloc(void *old, size_t size);
void *__wrap_malloc(size_t size);
void *__wrap_realloc(void *old, size_t size);

static bool is_refused(void)
{
    asked++;
    return refused_from <= asked && asked < refused_to;
}

void *__wrap_malloc(size_t size)
{
    return is_refused() ? NULL : __real_malloc(size);
}

void *__wrap_realloc(void *old, size_t size)
{
    return is_refused() ? NULL : __real_realloc(old, size);
}

static void *room(size_t size)
{
    void *at = __real_malloc(size + 1);
    if (!at)
        exit(1);
    memset(at, FILLER, size);
    return at;
}

static void get(void *into, size_t size)
{
    if (fread(into, 1, size, stdin) != size)
        exit(1);
}

static void put(const void *from, size_t size)
{
    if (fwrite(from, 1, size, stdout) != size)
        exit(1);
}

static uint32_t number(void)
{
    uint32_t value;
    get(&value, sizeof value);
    return value;
}

static uint64_t long_number(void)
{
    uint64_t value;
    get(&value, sizeof value);
    return value;
}

static void put_number(uint32_t value)
{
    put(&value, sizeof value);
}

static sam_host *host(void)
{
    int which = getchar();
    return which == 2 ? NULL : &hosts[which];
}

static sam_term *term(void)
{
    int which = getchar();
    return which == 2 ? NULL : &terms[which];
}

static sam_overlay *overlay(void)
{
    int which = getchar();
    return which == 2 ? NULL : &overlays[which];
}

static sam_link *link(void)
{
    int which = getchar();
    return which == 2 ? NULL : &links[which];
}

static sam_line *line(void)
{
    int which = getchar();
    return which == 2 ? NULL : &lines[which];
}

static sam_client *client(void)
{
    int which = getchar();
    return which == 2 ? NULL : &clients[which];
}

static sam_server *server(void)
{
    int which = getchar();
    return which == 2 ? NULL : &servers[which];
}

static sam_recovery *recovery(void)
{
    int which = getchar();
    return which == 2 ? NULL : &recoveries[which];
}

static struct lent lent(void)
{
    struct lent bytes = {.length = number()};
    bytes.at = room(bytes.length);
    get(bytes.at, bytes.length);
    return bytes;
}

static struct lent filled(size_t unit)
{
    struct lent bytes = {.length = number()};
    bytes.at = room(bytes.length * unit);
    return bytes;
}

static union out filler(void)
{
    union out out;
    memset(&out, FILLER, sizeof out);
    return out;
}

#include "calls.h"

static void reset(void)
{
    for (int i = 0; i < 2; i++) {
        sam_host_free(&hosts[i]);
        sam_term_free(&terms[i]);
        sam_link_free(&links[i]);
        sam_line_free(&lines[i]);
    }
    refused_from = refused_to = asked = 0;
}

/* Carries pending bytes to the other side, one of them changed if there are so many. Where they are not taken it tries again. */
static void carry(void)
{
    bool is_up = getchar() == 1;
    uint32_t spoiled = number();
    int value = getchar();
    struct lent bytes = filled(1);
    size_t count = 0;
    put_number(is_up ? sam_term_take_out(terms, bytes.at, bytes.length, &count) : sam_host_take_out(hosts, bytes.at, bytes.length, &count));
    put_number((uint32_t)count);
    put(bytes.at, bytes.length);
    if (spoiled < count)
        bytes.at[spoiled] = (uint8_t)value;
    sam_status status = SAM_NO_MEMORY;
    for (int i = 0; i < TRIES && status == SAM_NO_MEMORY; i++) {
        status = is_up ? sam_host_feed(hosts, bytes.at, count) : sam_term_feed(terms, bytes.at, count);
        put_number(status);
    }
    free(bytes.at);
}

/* The number of the next order. */
static uint32_t order(void)
{
    uint32_t value;
    return fread(&value, sizeof value, 1, stdin) == 1 ? value : ENDED;
}

int main(void)
{
    for (uint32_t code = order(); code != ENDED; code = order()) {
        if (code == RESET) {
            reset();
        } else if (code == REFUSE) {
            refused_from = asked + number();
            refused_to = refused_from + number();
        } else if (code == CARRY) {
            carry();
        } else if (code == ASKED) {
            put_number((uint32_t)asked);
        } else {
            call((int)code);
        }
    }
    return 0;
}
