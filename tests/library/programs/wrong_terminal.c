/*
 * wrong_terminal [TERMINALS [SEED]]: a durable server whose terminal says anything, over a link whose bytes are mostly right. The server
 * goes on, or stops by a status with a name, and says that again at each call. No more memory is held than the texts and the bytes that
 * came account for. A server that is made of its records has the texts that stood before the piece by which it stopped, if it did; its
 * heir has those that stand. Both go on. Some memory is refused. It ends with status 0; or 1 and what is wrong, or what was never met.
 */
#include "saying.h"

enum { TERMINALS = 300, SEED = 90, TURNS = 300, PIECE = 1 << 14, JOURNAL = 1 << 22, MOST_RECORDS = 4096, TEXT_ROOM = 4 * SAM_MOST_RUNES };
enum { MOST_ANEW = 200000, MOST_FOR_A_BYTE = 64, FILES = 3, FULL_IN = 40, MOST_TAGS = 256 };

static sam_server server;
static sam_link link_end; /* the terminal's */
static uint8_t id[SAM_LINK_ID_BYTES];
static uint64_t attempt, terminal_seed;
static size_t came;
static sam_status why; /* why the server has stopped */

/* The sum of each file's text before the last piece came; 0 for a file that is not there. */
static uint64_t known[MOST_TAGS];
static size_t known_tags;

/* The bodies of all records. */
static uint8_t journal[JOURNAL];
static size_t ends[MOST_RECORDS], records;

/* ---- The server's program ---- */

/* The status of a call that the server takes, once there was memory for all of it. */
#define SETTLED(status, call)                                                                                                              \
    do {                                                                                                                                   \
        while (((status) = met(call)) == SAM_NO_MEMORY)                                                                                    \
            ;                                                                                                                              \
        while ((status) == SAM_UNFINISHED)                                                                                                 \
            (status) = met(sam_server_go_on(&server));                                                                                     \
        note_stop(status);                                                                                                                 \
    } while (0)

/* Notes why the server has stopped: each call says the same from then on. */
static void note_stop(sam_status status)
{
    WANT(why == SAM_OK || status == why, 1);
    if (sam_is_stop(status))
        why = status;
}

static void keep_records(void)
{
    sam_status status;
    size_t len = 0;
    for (;;) {
        size_t at = records == 0 ? 0 : ends[records - 1];
        WANT(records < MOST_RECORDS, 1);
        if ((status = sam_server_next_record(&server, journal + at, sizeof journal - at, &len)) == SAM_NONE)
            break;
        WANT(status, SAM_OK);
        ends[records++] = at + len;
        WANT(sam_server_durable(&server, 1), SAM_OK);
    }
}

/* All effects are done, also those behind them. */
static void do_effects(void)
{
    sam_effect effect;
    sam_status status = SAM_OK;
    keep_records();
    while (status == SAM_OK && why == SAM_OK && sam_server_next_effect(&server, &effect) == SAM_OK) {
        SETTLED(status, sam_server_effect_done(&server, 0));
        keep_records();
    }
}

/* ---- Its texts ---- */

/* The sum of a file's text; 0 if there is none. */
static uint64_t sum_of_file(sam_server *of, uint16_t tag)
{
    static uint8_t bytes[TEXT_ROOM];
    size_t len = 0;
    uint32_t runes = 0;
    sam_status status = sam_server_text(of, tag, 0, bytes, sizeof bytes, &len, &runes);
    return status == SAM_OK ? sum_of(bytes, len) : 0;
}

/* Remembers the texts before a piece comes. */
static void remember(void)
{
    WANT(sam_server_tags(&server, &known_tags), SAM_OK);
    WANT(known_tags <= MOST_TAGS, 1);
    for (uint16_t tag = 0; tag < known_tags; tag++)
        known[tag] = sum_of_file(&server, tag);
}

/* ---- Hellos ---- */

/* A terminal's hello, as docs/reference/LINK.md has it. */
static void make_hello(enum sam_link_what what, uint64_t number, uint64_t received, uint8_t *hello)
{
    memcpy(hello, "\x89samlink\x01", 9);
    hello[9] = (uint8_t)what;
    memcpy(hello + 10, id, sizeof id);
    for (int i = 0; i < 8; i++) {
        hello[26 + i] = (uint8_t)(number >> 8 * (7 - i));
        hello[34 + i] = (uint8_t)(received >> 8 * (7 - i));
    }
}

/* A hello that is wrong somewhere is refused, and changes nothing. */
static void say_wrong_hello(void)
{
    static const struct {
        sam_status should;
        size_t place; /* at which a byte is turned */
    } wrong[] = {{SAM_LINK_NOT_A_LINK, 3},
                 {SAM_LINK_OTHER_VERSION, 8},
                 {SAM_LINK_BAD_HELLO, 9},
                 {SAM_LINK_OTHER_SESSION, 17},
                 {SAM_LINK_OLD_ATTEMPT, 33},
                 {SAM_LINK_WRONG_COUNT, 34},
                 {SAM_NONE, 0}};
    uint8_t hello[SAM_LINK_HELLO_BYTES];
    uint64_t after = 0;
    size_t which = pick(sizeof wrong / sizeof wrong[0]);
    sam_status status;
    make_hello(SAM_LINK_BEGIN, wrong[which].should == SAM_LINK_OLD_ATTEMPT ? attempt : attempt + 1, 0, hello);
    if (wrong[which].should == SAM_LINK_BAD_HELLO)
        hello[9] = SAM_LINK_WELCOME;
    else if (which < 4 || wrong[which].should == SAM_LINK_WRONG_COUNT)
        hello[wrong[which].place] ^= 0x40;
    SETTLED(status, sam_server_accept(&server, hello, wrong[which].should == SAM_NONE ? sizeof hello - 1 : sizeof hello));
    WANT(status, wrong[which].should);
    WANT(sam_server_attempt(&server, &after), SAM_OK);
    WANT(after, attempt);
}

/* A terminal that was welcomed elsewhere goes on here, where no connection was taken. */
static void go_on_elsewhere(void)
{
    uint8_t hello[SAM_LINK_HELLO_BYTES];
    sam_status status;
    make_hello(SAM_LINK_RESUME, 1, 0, hello);
    SETTLED(status, sam_server_accept(&server, hello, sizeof hello));
    WANT(status, SAM_LINK_NO_SESSION);
}

/* ---- The terminal ---- */

/* A connection is made, and both have the other's hello. */
static void connect(void)
{
    uint8_t hello[SAM_LINK_HELLO_BYTES];
    size_t count = 0;
    sam_status status;
    WANT(sam_link_call(&link_end, false, &attempt), SAM_OK);
    WANT(sam_link_take_out(&link_end, attempt, hello, sizeof hello, &count), SAM_OK);
    SETTLED(status, sam_server_accept(&server, hello, sizeof hello));
    if (why != SAM_OK)
        return;
    WANT(status, SAM_OK);
    keep_records();
    WANT(sam_server_take_out(&server, attempt, hello, sizeof hello, &count), SAM_OK);
    WANT(count, sizeof hello);
    WANT(sam_link_welcomed(&link_end, hello, sizeof hello), SAM_OK);
}

static uint32_t length_of(uint16_t tag)
{
    uint32_t runes = 0;
    sam_status status = sam_server_len(&server, tag, &runes);
    WANT(status == SAM_OK || status == SAM_NONE, 1);
    return runes;
}

/* The terminal's end of the link has another frame or note to go. */
static void put_something(void)
{
    static const size_t notes[] = {0, 1, SAM_LINK_MOST_NOTE};
    uint8_t note[SAM_LINK_MOST_NOTE];
    struct said said = {.len = 0};
    uint16_t tag = one_in(20) ? (uint16_t)pick(FILES + 1) : 1;
    say_frame(&said, false, tag, length_of(tag));
    WANT(sam_link_put(&link_end, said.bytes, said.len), SAM_OK);
    if (one_in(10)) {
        size_t len = PICK_OF(notes);
        pick_bytes(note, len);
        WANT(sam_link_put_note(&link_end, note, len), SAM_OK);
    }
    if (one_in(10))
        WANT(sam_link_ask(&link_end), SAM_OK);
}

/* Says something, and returns whether the connection stands. */
static bool say(void)
{
    static uint8_t bytes[PIECE];
    size_t count = 0;
    sam_status status;
    spare_memory(true);
    put_something();
    WANT(sam_link_take_out(&link_end, attempt, bytes, sizeof bytes - STAMP_BYTES, &count), SAM_OK);
    spare_memory(false);
    if (count > 0 && one_in(300))
        bytes[pick((uint32_t)count)] ^= (uint8_t)(1 + pick(255));
    if (one_in(200)) { /* acknowledges what nobody put */
        memcpy(bytes + count, "\x03\x00\x08\x00\x00\x01\x00\x00\x00\x00\x00", FRAME_HEAD + STAMP_BYTES);
        count += FRAME_HEAD + STAMP_BYTES;
    }
    came += count;
    SETTLED(status, sam_server_receive(&server, attempt, bytes, count));
    WANT(status == SAM_OK || why != SAM_OK || (status > SAM_LINK && status <= SAM_LINK_ACK_AHEAD), 1);
    return status == SAM_OK;
}

/* The terminal takes what the server says, and hears none of it; or it never looks. */
static void look(bool listens)
{
    static uint8_t bytes[PIECE];
    size_t count = 0;
    if (sam_server_take_out(&server, attempt, bytes, sizeof bytes, &count) != SAM_OK || !listens)
        return;
    spare_memory(true);
    WANT(sam_link_feed(&link_end, attempt, bytes, count), SAM_OK);
    while (sam_link_take_in(&link_end, bytes, sizeof bytes, &count) == SAM_OK && count > 0)
        ;
    spare_memory(false);
}

/* ---- What is left ---- */

/* A server that is made of the records has the same texts. The piece by which a server stops makes no record: without it, it goes on. */
static void same_again(void)
{
    sam_recovery recovery = SAM_RECOVERY_INIT;
    sam_server again = SAM_SERVER_INIT;
    size_t tags = 0;
    keep_records();
    if (why == SAM_OK)
        remember();
    WANT(sam_recovery_new(&recovery, id), SAM_OK);
    for (size_t i = 0, at = 0; i < records; at = ends[i++])
        WANT(sam_recovery_take(&recovery, journal + at, ends[i] - at), SAM_OK);
    WANT(sam_recovery_finish(&recovery, &again), SAM_OK);
    WANT(sam_server_tags(&again, &tags), SAM_OK);
    WANT(tags, known_tags);
    for (uint16_t tag = 0; tag < tags; tag++)
        WANT(sum_of_file(&again, tag) == known[tag], 1);
    WANT(sam_server_acknowledge(&again), SAM_OK);
    WANT(sam_server_free(&again), SAM_OK);
}

/* The heir has the texts, and goes on, whatever became of the server. */
static void same_heir(void)
{
    sam_server heir = SAM_SERVER_INIT;
    size_t tags = 0;
    uint16_t next = 1;
    sam_status status = sam_server_heir(&server, (const uint8_t *)"another sessions", &heir);
    if (status == SAM_SERVER_EFFECT_WAITS) {
        met(status);
        return;
    }
    WANT(status, SAM_OK);
    WANT(sam_server_tags(&server, &tags), SAM_OK);
    for (uint16_t tag = 1; tag < tags; tag++)
        if (sum_of_file(&server, tag) != 0)
            WANT(sum_of_file(&heir, next++) == sum_of_file(&server, tag), 1);
    WANT(sam_server_acknowledge(&heir), SAM_OK);
    WANT(sam_server_free(&heir), SAM_OK);
}

/* No more memory is held than the texts, three times, and the bytes that came account for. */
static void bounded(size_t before)
{
    size_t tags = 0, bytes = came, held = held_memory() - before;
    uint32_t snarf = 0;
    WANT(sam_server_tags(&server, &tags), SAM_OK);
    WANT(sam_server_snarf_len(&server, &snarf), SAM_OK);
    bytes += snarf;
    for (uint16_t tag = 0; tag < tags; tag++)
        bytes += length_of(tag);
    if (held > MOST_ANEW + MOST_FOR_A_BYTE * bytes)
        printf("%zu bytes are held, for %zu\n", held, bytes);
    WANT(held <= MOST_ANEW + MOST_FOR_A_BYTE * bytes, 1);
}

/* ---- A session ---- */

static void join(const char *name, const uint8_t *text, size_t len)
{
    uint16_t tag = 0;
    sam_status status;
    SETTLED(status, sam_server_add_file(&server, (const uint8_t *)name, strlen(name), text, len, &tag));
    WANT(status, SAM_OK);
}

static void begin(uint64_t seed)
{
    static uint8_t full[SAM_MOST_RUNES];
    terminal_seed = seed;
    begin_chance(seed);
    refuse_memory(seed, seed % 3 == 0 ? 100 : 0);
    attempt = 0, came = records = 0, why = SAM_OK;
    pick_bytes(id, sizeof id);
    while (sam_server_new(&server, id) != SAM_OK)
        ;
    while (sam_link_new(&link_end, SAM_LINK_TERMINAL, id) != SAM_OK)
        ;
    memset(full, 'f', sizeof full);
    join("first", full, seed % FULL_IN == 0 ? sizeof full : 8);
    join("second", NULL, 0);
    if (one_in(4))
        go_on_elsewhere();
    connect();
}

/* The terminal asks for names, for the first file and for the command file. */
static void say_opening(void)
{
    struct said said = {.len = 0};
    say_number(&said, SAM_KIND_TVERSION, 1);
    say_number(&said, 2, 2);
    say_number(&said, 2, 2);
    say_of_file(&said, SAM_KIND_TSTARTFILE, 1, NULL, 0);
    say_number(&said, SAM_KIND_TSTARTCMDFILE, 1);
    say_number(&said, 0, 2);
    spare_memory(true);
    WANT(sam_link_put(&link_end, said.bytes, said.len), SAM_OK);
    spare_memory(false);
}

static void session(uint64_t seed)
{
    size_t before = held_memory();
    begin(seed);
    say_opening();
    bool listens = pick(2);
    for (int turn = 0; turn < TURNS && why == SAM_OK; turn++) {
        remember();
        bool stands = say();
        do_effects();
        look(listens);
        if (why == SAM_OK && one_in(20))
            say_wrong_hello();
        if (why == SAM_OK && !stands)
            connect();
    }
    refuse_memory(0, 0);
    WANT(sam_link_free(&link_end), SAM_OK);
    bounded(before);
    same_again();
    same_heir();
    WANT(sam_server_free(&server), SAM_OK);
    WANT(held_memory(), before);
}

static bool is_over;

static void tell_seed(void)
{
    if (!is_over)
        printf("of the terminal of seed %lu\n", (unsigned long)terminal_seed);
}

int main(int argc, char **argv)
{
    static const sam_status wanted[] = {SAM_NO_MEMORY,          SAM_UNFINISHED,
                                        SAM_BAD_KIND,           SAM_BAD_LENGTH,
                                        SAM_BAD_TEXT,           SAM_HOST_NO_FILE,
                                        SAM_HOST_NOT_OPEN,      SAM_HOST_BAD_POSITION,
                                        SAM_HOST_TOO_LONG,      SAM_HOST_BAD_VERSION,
                                        SAM_HOST_COMMAND_FILE,  SAM_LINK_NOT_A_LINK,
                                        SAM_LINK_OTHER_VERSION, SAM_LINK_BAD_HELLO,
                                        SAM_LINK_NO_SESSION,    SAM_LINK_OTHER_SESSION,
                                        SAM_LINK_OLD_ATTEMPT,   SAM_LINK_WRONG_COUNT,
                                        SAM_LINK_BAD_KIND,      SAM_LINK_BAD_LENGTH,
                                        SAM_LINK_ACK_AHEAD,     SAM_NONE};
    uint64_t count = argc > 1 ? strtoull(argv[1], NULL, 10) : TERMINALS, seed = argc > 2 ? strtoull(argv[2], NULL, 10) : SEED;
    atexit(tell_seed);
    for (uint64_t number = seed; number < seed + count; number++)
        session(number);
    is_over = true;
    if (tell_met(NULL, 0, wanted, count >= TERMINALS ? sizeof wanted / sizeof wanted[0] : 0) > 0)
        return 1;
    printf("%lu terminals: each is refused by name, or goes on\n", (unsigned long)count);
    return 0;
}
