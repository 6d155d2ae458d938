/*
 * wrong_host [HOSTS [SEED]]: a client whose host says anything, over a link whose bytes are mostly right. The client goes on, or stops by a
 * status with a name, and says that again at each call. The user's copy of each file is what is shown, then too; the requests that are told
 * are told once and in order; and no more memory is held than the bytes that came account for. Some memory is refused. It ends with status
 * 0; or 1 and what is wrong, or what was never met.
 */
#define MOST_KEPT 1002000 /* runes of the longest text, and of what waits over it */
#include "copies.h"
#include "saying.h"

enum {
    HOSTS = 300,
    SEED = 90,
    TURNS = 300,
    PAUSE = 2000,
    PIECE = 1 << 15,
    WIDTH = 1000,
    COMPARED = 1 << 14,
    KINDS = SAM_EVENT_PASTE_CMD + 1
};
enum { MOST_ANEW = 200000, MOST_FOR_A_BYTE = 64, MANY_WORDS = 70000, MANY_ASKS = 30000 };

static sam_client client;
static sam_link link_end; /* the host's */
static uint8_t id[SAM_LINK_ID_BYTES];
static uint64_t now, attempt, request, told, host_seed;
static size_t came, typed; /* bytes of the host, and of the user */
static sam_status why;     /* why the client has stopped */
static struct text copies[SAID_FILES];
static bool is_silly; /* the user asks for what is not there */

/* ---- The user's program ---- */

static bool is_open(uint16_t tag)
{
    sam_file file;
    WANT(sam_client_file(&client, tag, &file), SAM_OK);
    return file.is_open;
}

static void take_splices(void)
{
    sam_splice splice;
    while (sam_client_next_splice(&client, &splice) == SAM_OK)
        if (splice.tag < SAID_FILES)
            take_into(&copies[splice.tag], &client, &splice);
}

/* Goes on until nothing moves. */
static void go_on(void)
{
    sam_client_event event = SAM_CLIENT_BUSY;
    sam_did did;
    while (event != SAM_CLIENT_IDLE && why == SAM_OK) {
        sam_status status = sam_client_next_event(&client, now, &event, &did);
        if (status == SAM_UNFINISHED)
            continue;
        if (status != SAM_OK) {
            WANT(sam_is_stop(status), true);
            why = met(status);
            return;
        }
        take_splices();
        if (event == SAM_CLIENT_REFUSED)
            met(did.why);
        if (did.request != 0) {
            WANT(did.request > told && did.request <= request, 1);
            told = did.request;
        }
        if (event == SAM_CLIENT_STEPPED && did.tag < SAID_FILES && copies[did.tag].len < COMPARED)
            same_as_client(&client, did.tag, &copies[did.tag]);
    }
}

static void edit(uint16_t tag)
{
    static const uint32_t runes[] = {'x', 0x20AC};
    struct text *copy = &copies[tag];
    if (!is_open(tag) && !is_silly)
        return;
    uint32_t start = pick(copy->len + 1), gone = pick(3), count = pick(3);
    uint8_t bytes[8];
    gone = gone < copy->len - start ? gone : copy->len - start;
    sam_status status;
    while ((status = met(sam_client_replace(&client, tag, start, start + gone, bytes, spell(runes, count, bytes)))) == SAM_NO_MEMORY)
        ;
    typed += sizeof bytes;
    if (status == SAM_OK)
        change(copy, start, gone, runes, count);
    else
        WANT((status > SAM_REFUSAL && status <= SAM_REFUSAL_BAD_VERSION) || status == why, 1);
}

static void ask(sam_event_kind kind, uint16_t tag)
{
    const sam_event event = {.kind = kind, .start = pick(40), .number = pick(400), .tag = tag, .version = (uint16_t)pick(3)};
    uint64_t number = 0;
    bool has_text = kind == SAM_EVENT_SET_SNARF || kind == SAM_EVENT_TYPE_CMD;
    sam_status status;
    while ((status = met(sam_client_ask(&client, &event, (const uint8_t *)"p\n", has_text ? 2 : 0, &number))) == SAM_NO_MEMORY)
        ;
    typed += sizeof event;
    WANT(status == SAM_OK || status == SAM_WAITING || status == SAM_TOO_MANY, 1);
    WANT(status != SAM_OK || number == request + 1 || (kind == SAM_EVENT_WRITE && number > told && number <= request), 1);
    request = number > request ? number : request;
}

static void user(void)
{
    uint16_t tag = (uint16_t)pick(is_silly ? SAID_FILES + 2 : SAID_FILES);
    if (one_in(3))
        edit(tag < SAID_FILES ? tag : 1);
    else if (one_in(3))
        ask(is_silly || one_in(20) ? (sam_event_kind)(1 + pick(SAM_EVENT_PASTE_CMD)) : SAM_EVENT_WRITE, tag);
}

/* ---- The connection ---- */

/* A connection is made, and the host has its hello. Returns false if none is wanted any more. */
static bool call(uint8_t *hello)
{
    size_t count = 0;
    sam_line_details details;
    for (uint32_t tick = SAM_TICK_NOTHING; tick != SAM_TICK_CONNECT; now += tick == SAM_TICK_NOTHING ? PAUSE : 0) {
        WANT(sam_client_tick(&client, now, &tick), SAM_OK);
        WANT(sam_client_describe(&client, now, &details), SAM_OK);
        if (details.state == SAM_LINE_LOST)
            return false;
    }
    WANT(sam_client_connected(&client, now, &attempt), SAM_OK);
    WANT(sam_client_take_out(&client, attempt, hello, SAM_LINK_HELLO_BYTES, &count), SAM_OK);
    WANT(count, SAM_LINK_HELLO_BYTES);
    return true;
}

/* The client takes bytes. Returns false if the connection is over then. */
static bool hear(const uint8_t *bytes, size_t len)
{
    sam_status status;
    came += len;
    while ((status = met(sam_client_receive(&client, attempt, bytes, len, now))) == SAM_NO_MEMORY)
        ;
    WANT(status == SAM_OK || status == why || (status > SAM_LINK && status <= SAM_LINK_WRONG_HELLO), 1);
    return status == SAM_OK;
}

/* The host's end takes what the client says, and the host's program hears none of it. */
static void host_takes(void)
{
    static uint8_t bytes[PIECE];
    size_t count = 0;
    if (sam_client_take_out(&client, attempt, bytes, sizeof bytes, &count) != SAM_OK || !one_in(2))
        return;
    spare_memory(true);
    if (sam_link_feed(&link_end, attempt, bytes, count) == SAM_OK)
        do
            while (sam_link_take_in(&link_end, bytes, sizeof bytes, &count) == SAM_OK && count > 0)
                ;
        while (sam_link_next_note(&link_end, bytes, sizeof bytes, &count) == SAM_OK);
    spare_memory(false);
}

/* What a host's end hands out for the connection, in which a byte may be turned, or behind which anything may come. */
static size_t take_out(uint8_t *bytes, size_t room)
{
    size_t count = 0;
    if (sam_link_take_out(&link_end, attempt, bytes, room - WIDTH, &count) != SAM_OK)
        return 0;
    if (count > 0 && one_in(300))
        bytes[pick((uint32_t)count)] ^= (uint8_t)(1 + pick(255));
    if (one_in(200)) { /* acknowledges what nobody put */
        memcpy(bytes + count, "\x03\x00\x08\x00\x00\x01\x00\x00\x00\x00\x00", FRAME_HEAD + STAMP_BYTES);
        count += FRAME_HEAD + STAMP_BYTES;
    } else if (one_in(100)) {
        size_t more = pick(20);
        pick_bytes(bytes + count, more);
        count += more;
    }
    return count;
}

/* ---- What the host says ---- */

static void put_frame(void)
{
    struct said said = {.len = 0};
    uint16_t tag = (uint16_t)pick(SAID_FILES);
    sam_file file;
    WANT(sam_client_file(&client, tag, &file), SAM_OK);
    say_frame(&said, true, tag, file.len);
    WANT(sam_link_put(&link_end, said.bytes, said.len), SAM_OK);
}

static void say(void)
{
    static uint8_t bytes[PIECE];
    static const size_t notes[] = {0, 1, 30, SAM_LINK_MOST_NOTE};
    spare_memory(true);
    if (one_in(25)) {
        size_t len = PICK_OF(notes);
        pick_bytes(bytes, len);
        WANT(sam_link_put_note(&link_end, bytes, len), SAM_OK);
    } else if (one_in(25)) {
        WANT(sam_link_ask(&link_end), SAM_OK);
    } else {
        put_frame();
    }
    size_t count = take_out(bytes, sizeof bytes);
    spare_memory(false);
    hear(bytes, count);
}

/* The host opens each file, with a text that is not loaded. */
static void say_opening(void)
{
    struct said said = {.len = 0};
    const uint32_t grown[] = {0, WIDTH};
    for (uint16_t tag = 0; tag < SAID_FILES; tag++) {
        say_of_file(&said, SAM_KIND_HNEWNAME, tag, NULL, 0);
        say_of_file(&said, SAM_KIND_HBINDNAME, tag, NULL, 0);
        say_of_file(&said, SAM_KIND_HGROW, tag, grown, 2);
    }
    spare_memory(true);
    WANT(sam_link_put(&link_end, said.bytes, said.len), SAM_OK);
    spare_memory(false);
}

/* ---- What the host says to a hello ---- */

static void say_words(void)
{
    static uint8_t words[MANY_WORDS];
    size_t len = one_in(3) ? sizeof words : pick(500);
    memset(words, 'w', len);
    hear(words, len);
}

/* The host welcomes another, or refuses, or its hello is wrong somewhere. */
static void say_wrong_hello(const uint8_t *hello)
{
    uint8_t answer[SAM_LINK_HELLO_BYTES];
    WANT(sam_link_write_refusal(SAM_LINK_NOT_A_LINK + pick(7), hello, SAM_LINK_HELLO_BYTES, answer), SAM_OK);
    if (pick(2)) {
        answer[9] = SAM_LINK_WELCOME;
        answer[8 + pick(SAM_LINK_HELLO_BYTES - 8)] ^= (uint8_t)(1 + pick(255));
    }
    hear(answer, sizeof answer);
}

/* Many questions, and nobody takes an answer. */
static void ask_much(void)
{
    static uint8_t asks[3 * MANY_ASKS];
    for (size_t i = 0; i < sizeof asks; i++)
        asks[i] = i % 3 == 0 ? 4 : 0; /* the kind of a question, which has no body */
    while (why == SAM_OK && hear(asks, sizeof asks / 8))
        go_on();
}

/* A connection is made anew. Returns false if none is wanted any more. */
static bool connect_again(void)
{
    uint8_t hello[SAM_LINK_HELLO_BYTES];
    WANT(sam_client_broken(&client, attempt, now), SAM_OK);
    for (int tries = 0; tries < 4; tries++) {
        if (!call(hello))
            return false;
        if (one_in(8))
            say_words();
        if (one_in(8))
            say_wrong_hello(hello);
        sam_status status = sam_link_answer(&link_end, hello, sizeof hello);
        if (status == SAM_OK)
            return true;
        met(status);
    }
    return false;
}

/* ---- A session ---- */

static void begin(uint64_t seed)
{
    host_seed = seed;
    begin_chance(seed);
    refuse_memory(seed, seed % 3 == 0 ? 100 : 0);
    now = 1000, attempt = request = told = 0, came = typed = 0, why = SAM_OK, is_silly = one_in(3);
    for (uint16_t tag = 0; tag < SAID_FILES; tag++)
        copies[tag].len = 0;
    pick_bytes(id, sizeof id);
    while (sam_client_new(&client, id, false, now) != SAM_OK)
        ;
    while (sam_link_new(&link_end, SAM_LINK_HOST, id) != SAM_OK)
        ;
    ask(SAM_EVENT_OPEN_CMD, 0);
    for (uint16_t tag = 1; tag < SAID_FILES; tag++)
        ask(SAM_EVENT_OPEN, tag);
}

static void compare(void)
{
    for (uint16_t tag = 0; tag < SAID_FILES; tag++)
        same_as_client(&client, tag, &copies[tag]);
}

/* The client says why it has stopped, each time, and shows its texts. */
static void end(size_t before)
{
    sam_client_event event;
    sam_did did;
    compare();
    for (int i = 0; i < 2 && why != SAM_OK; i++)
        WANT(sam_client_next_event(&client, now, &event, &did), why);
    compare();
    size_t held = held_memory() - before;
    if (held > MOST_ANEW + MOST_FOR_A_BYTE * (came + typed))
        printf("%zu bytes are held, after %zu came and %zu were typed\n", held, came, typed);
    WANT(held <= MOST_ANEW + MOST_FOR_A_BYTE * (came + typed), 1);
    WANT(sam_client_free(&client), SAM_OK);
    WANT(held_memory(), before);
}

static void session(uint64_t seed)
{
    static size_t before;
    before = held_memory();
    begin(seed);
    bool is_on = connect_again();
    say_opening();
    for (int turn = 0; turn < TURNS && is_on && why == SAM_OK; turn++) {
        uint32_t phase = 0;
        say();
        go_on();
        user();
        host_takes();
        if (one_in(TURNS * 8))
            ask_much();
        WANT(sam_link_phase(&link_end, &phase), SAM_OK);
        sam_line_details details;
        WANT(sam_client_describe(&client, now, &details), SAM_OK);
        if (phase != SAM_LINK_OPEN || details.state == SAM_LINE_DOWN || details.state == SAM_LINE_LOST)
            is_on = connect_again();
    }
    refuse_memory(0, 0);
    WANT(sam_link_free(&link_end), SAM_OK);
    end(before);
}

static bool is_over;

static void tell_seed(void)
{
    if (!is_over)
        printf("of the host of seed %lu\n", (unsigned long)host_seed);
}

int main(int argc, char **argv)
{
    static const sam_status wanted[] = {SAM_BAD_KIND,
                                        SAM_BAD_LENGTH,
                                        SAM_BAD_TEXT,
                                        SAM_TERM_FROM_THE_FUTURE,
                                        SAM_TERM_NO_FILE,
                                        SAM_TERM_NOT_OPEN,
                                        SAM_TERM_ALREADY_BOUND,
                                        SAM_TERM_BAD_POSITION,
                                        SAM_TERM_TOO_LONG,
                                        SAM_TERM_LOCK_NOT_HELD,
                                        SAM_LINK_NOT_A_LINK,
                                        SAM_LINK_OTHER_VERSION,
                                        SAM_LINK_BAD_HELLO,
                                        SAM_LINK_NO_SESSION,
                                        SAM_LINK_OTHER_SESSION,
                                        SAM_LINK_OLD_ATTEMPT,
                                        SAM_LINK_WRONG_COUNT,
                                        SAM_LINK_BAD_KIND,
                                        SAM_LINK_BAD_LENGTH,
                                        SAM_LINK_ACK_AHEAD,
                                        SAM_LINK_TOO_MANY_WORDS,
                                        SAM_LINK_TOO_MANY_ANSWERS,
                                        SAM_LINK_WRONG_HELLO,
                                        SAM_NO_MEMORY};
    uint64_t count = argc > 1 ? strtoull(argv[1], NULL, 10) : HOSTS, seed = argc > 2 ? strtoull(argv[2], NULL, 10) : SEED;
    atexit(tell_seed);
    for (uint64_t number = seed; number < seed + count; number++)
        session(number);
    is_over = true;
    if (tell_met(NULL, 0, wanted, count >= HOSTS ? sizeof wanted / sizeof wanted[0] : 0) > 0)
        return 1;
    printf("%lu hosts: each is refused by name, or goes on\n", (unsigned long)count);
    return 0;
}
