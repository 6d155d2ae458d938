/*
 * waiting SEED STEPS: a host and an overlay in one process, joined by byte pipes that are cut at random places. The user edits one file,
 * asks for it to be written, and for command lines that change it, as bytes go up and down now and then. An editor's own copy takes what
 * its user typed at once, and then the splices alone: it is what is shown after each step. Each request is told of once, in their order.
 * At the end host, terminal and copy have the same text, and no rune of the user's is lost. In a session with an even seed no command line
 * is sent: there it is the text that the same edits make on one machine. A call that wants memory is made again, so the program prints the
 * same whichever request for memory was refused. It ends with status 0, or 1 and what is wrong.
 */
#include "signed_edits.h"

enum { PIECE = 48, ALL_KINDS = 16 };

static sam_host host = SAM_HOST_INIT;
static sam_overlay overlay = SAM_OVERLAY_INIT;
static bool sends;
static unsigned long edits, told, lines, writes;
static uint64_t asked, answered; /* the numbers of the last request that was taken, and of the last that was told of */

static struct text copy; /* the editor's own */

/* ---- What is shown ---- */

static void same_as_shown(void)
{
    static uint32_t runes[MOST];
    uint32_t count = 0;
    WANT(sam_overlay_read(&overlay, EDITED, 0, runes, MOST, &count), SAM_OK);
    WANT(count, copy.len);
    WANT(memcmp(runes, copy.runes, count * sizeof *runes), 0);
}

static void take_splice(const sam_splice *splice)
{
    static uint32_t came[MOST];
    uint32_t count = 0;
    if (splice->tag != EDITED)
        return;
    told++;
    if (splice->kind == SAM_SPLICE_EMPTIED) {
        copy.len = 0;
        return;
    }
    bool comes = splice->kind != SAM_SPLICE_WENT;
    if (comes) {
        WANT(sam_overlay_read(&overlay, EDITED, splice->place, came, splice->count, &count), SAM_OK);
        WANT(count, splice->count);
    }
    change(&copy, splice->place, splice->kind == SAM_SPLICE_CAME ? 0 : splice->count, came, comes ? splice->count : 0);
}

/* One step, with its splices. Returns whether it did something. */
static bool step(void)
{
    sam_did did;
    sam_splice splice;
    sam_file file;
    DONE(sam_overlay_step(&overlay, &did));
    while (sam_overlay_next_splice(&overlay, &splice) == SAM_OK)
        take_splice(&splice);
    if (did.request > 0)
        WANT(did.request, ++answered);
    WANT(sam_overlay_file(&overlay, EDITED, &file), SAM_OK);
    if (file.is_open)
        same_as_shown();
    return did.step != SAM_STEP_IDLE && did.step != SAM_STEP_LOCKED;
}

/* All that can be done without the host, requests and edits that wait among it. */
static void go_on(void)
{
    sam_turn turn;
    sam_put put;
    do {
        while (step())
            ;
        put = SAM_PUT_NOTHING;
        DONE(sam_overlay_act_next(&overlay, &turn));
        if (turn != SAM_TURN_REQUEST)
            DONE(sam_overlay_put_next(&overlay, EDITED, &put));
    } while (turn == SAM_TURN_REQUEST || put == SAM_PUT_EDIT);
}

/* ---- Bytes ---- */

static bool carry_up(uint32_t most)
{
    uint8_t piece[PIECE];
    size_t count = 0;
    WANT(sam_overlay_take_out(&overlay, piece, most, &count), SAM_OK);
    sam_status status;
    while ((status = sam_host_feed(&host, piece, count)) == SAM_NO_MEMORY)
        ;
    while (status == SAM_NO_MEMORY || status == SAM_UNFINISHED)
        status = sam_host_feed(&host, NULL, 0);
    WANT(status, SAM_OK);
    return count > 0;
}

static bool carry_down(uint32_t most)
{
    uint8_t piece[PIECE];
    size_t count = 0;
    WANT(sam_host_take_out(&host, piece, most, &count), SAM_OK);
    if (count > 0)
        DONE(sam_overlay_bring(&overlay, piece, count));
    go_on();
    return count > 0;
}

static void drain(void)
{
    go_on();
    for (bool moved = true; moved;) {
        moved = carry_up(PIECE);
        while (carry_down(PIECE))
            moved = true;
    }
}

/* ---- The user ---- */

static void event(sam_event_kind kind, uint16_t tag, uint32_t start, uint32_t number)
{
    sam_event event = {.kind = kind, .start = start, .number = number, .tag = tag, .version = 2};
    go_on();
    DONE(sam_overlay_bring_event(&overlay, &event, NULL, 0));
    go_on();
}

static void ask(sam_event_kind kind, uint16_t tag, uint32_t start, uint32_t number)
{
    sam_event event = {.kind = kind, .start = start, .number = number, .tag = tag};
    uint64_t request = 0;
    go_on();
    DONE(sam_overlay_ask(&overlay, &event, NULL, 0, &request));
    WANT(request > answered && request <= asked + 1, 1);
    asked = request > asked ? request : asked;
    if (asked % 2 == 0)
        go_on();
}

static void edit(void)
{
    struct edit edit = pick_edit(&copy);
    DONE(sam_overlay_replace(&overlay, EDITED, edit.start, edit.start + edit.gone, (const uint8_t *)edit.utf8, strlen(edit.utf8)));
    take_edit(&copy, &edit);
    if (!sends)
        take_edit(&alone, &edit);
    same_as_shown();
    edits++;
}

static void send_line(void)
{
    struct range line = pick_line();
    ask(SAM_EVENT_SELECT, COMMANDS, line.start, line.end);
    ask(SAM_EVENT_SEND, COMMANDS, 0, 0);
    lines++;
}

static void user(void)
{
    switch (pick(ALL_KINDS)) {
    case 0:
        writes++;
        ask(SAM_EVENT_WRITE, EDITED, 0, 0);
        break;
    case 1:
        if (sends)
            send_line();
        break;
    case 2:
        ask(SAM_EVENT_LOAD, EDITED, 0, MOST);
        break;
    default:
        edit();
    }
}

/* ---- A session ---- */

static void begin(void)
{
    static uint8_t text[LOADED];
    uint16_t tag = 0;
    begin_text(text);
    DONE(sam_host_new(&host));
    DONE(sam_host_add_file(&host, BYTES("edited"), text, LOADED, &tag));
    DONE(sam_host_add_file(&host, BYTES("commands"), BYTES(commands), &tag));
    DONE(sam_overlay_new(&overlay));
    event(SAM_EVENT_OFFER_VERSION, 0, 0, 0);
    drain();
    event(SAM_EVENT_OPEN_CMD, 0, 0, 0);
    event(SAM_EVENT_OPEN, COMMANDS, 0, 0);
    event(SAM_EVENT_OPEN, EDITED, 0, 0);
    drain();
    WANT(copy.len, LOADED);
}

/* All is at rest: what is shown is the host's text. */
static void rest(void)
{
    static uint8_t bytes[4 * MOST], shown[4 * MOST];
    uint32_t waiting = 9, runes = 0, len = 0;
    size_t count = 0;
    drain();
    WANT(answered, asked);
    event(SAM_EVENT_LOAD, EDITED, 0, MOST);
    drain();
    WANT(sam_overlay_waiting(&overlay, EDITED, &waiting), SAM_OK);
    WANT(waiting, 0);
    WANT(sam_host_text(&host, EDITED, 0, bytes, sizeof bytes, &count, &runes), SAM_OK);
    WANT(sam_host_len(&host, EDITED, &len), SAM_OK);
    WANT(runes == len && runes == copy.len, 1);
    size_t shown_count = 0;
    WANT(sam_overlay_text(&overlay, EDITED, 0, shown, count, &shown_count, &runes), SAM_OK);
    WANT(shown_count == count && memcmp(shown, bytes, count) == 0, 1);
    WANT(count_signs(&copy), signs);
    if (!sends)
        WANT(alone.len == copy.len && memcmp(alone.runes, copy.runes, copy.len * sizeof *copy.runes) == 0, 1);
}

int main(int argc, char **argv)
{
    if (argc != 3)
        return 2;
    unsigned long seed = strtoul(argv[1], NULL, 10), steps = strtoul(argv[2], NULL, 10);
    begin_picks(seed);
    sends = seed % 2 == 1;
    uint32_t delay = 1 + pick(6); /* a greater one has more wait */
    setvbuf(stdout, NULL, _IONBF, 0);
    begin();
    for (unsigned long i = 0; i < steps; i++) {
        user();
        while (pick(1 + delay) == 0 && (pick(2) ? carry_up(1 + pick(PIECE)) : carry_down(1 + pick(PIECE))))
            ;
    }
    rest();
    printf("%lu edits, %lu writes, %lu lines, %lu splices: all as the host has them\n", edits, writes, lines, told);
    WANT(sam_host_free(&host), SAM_OK);
    WANT(sam_overlay_free(&overlay), SAM_OK);
    return 0;
}
