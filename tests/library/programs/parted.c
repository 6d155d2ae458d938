/*
 * parted SEED STEPS: a host and a client in one process, over connections that break at random places. The user edits one file, has it
 * written, sends command lines that change it, and puts notes, connected or not. The editor's own copy is what is shown after each step
 * (fronting.h). At the end host, client and copy have the same text, each note has come, and no rune of the user's is lost. In a session
 * with an even seed no command line is sent: there it is the text that the same edits make on one machine, and the last write has what was
 * shown when it was asked for. A call that wants memory is made again, so the program prints the same whichever request for memory was
 * refused. It ends with status 0, or 1 and what is wrong.
 */
#include "fronting.h"
#include "link_bytes.h"
#include "signed_edits.h"

enum { PIECE = 48, ALL_KINDS = 20 };

static bool sends;
static unsigned long edits, lines, writes, notes, breaks;
static struct text saved; /* what the edits made on one machine when the last write was asked for */

/* ---- The user ---- */

/* An event of the user, which may wait. */
static void event(sam_event_kind kind, uint16_t tag, uint32_t start, uint32_t number)
{
    DONE(ask_for(kind, tag, start, number));
    if (pick(2) == 0)
        go_on();
}

static void edit(void)
{
    struct edit edit = pick_edit(&copy);
    type(edit.start, edit.gone, edit.utf8, edit.runes, edit.len);
    if (!sends)
        take_edit(&alone, &edit);
    edits++;
}

static void send_line(void)
{
    struct range line = pick_line();
    event(SAM_EVENT_SELECT, COMMANDS, line.start, line.end);
    event(SAM_EVENT_SEND, COMMANDS, 0, 0);
    lines++;
}

static void put_note(void)
{
    DONE(sam_client_put_note(&client, BYTES("a note"), now));
    DONE(sam_link_put_note(&host_end, BYTES("an answer")));
    notes++;
}

static void user(void)
{
    switch (pick(ALL_KINDS)) {
    case 0:
        writes++;
        saved = alone;
        event(SAM_EVENT_WRITE, EDITED, 0, 0);
        break;
    case 1:
        if (sends)
            send_line();
        break;
    case 2:
        event(SAM_EVENT_LOAD, EDITED, 0, MOST);
        break;
    case 3:
        put_note();
        break;
    default:
        edit();
    }
}

/* ---- A session ---- */

static void begin(void)
{
    static uint8_t text[LOADED];
    uint16_t tag = 0;
    begin_text(text);
    DONE(sam_host_new(&host));
    DONE(sam_link_new(&host_end, SAM_LINK_HOST, id));
    DONE(sam_host_add_file(&host, BYTES("edited"), text, LOADED, &tag));
    DONE(sam_host_add_file(&host, BYTES("commands"), BYTES(commands), &tag));
    DONE(sam_client_new(&client, id, false, now));
    connect();
    event(SAM_EVENT_OFFER_VERSION, 0, 0, 0);
    settle();
    event(SAM_EVENT_OPEN_CMD, 0, 0, 0);
    event(SAM_EVENT_OPEN, COMMANDS, 0, 0);
    event(SAM_EVENT_OPEN, EDITED, 0, 0);
    settle();
    WANT(copy.len, LOADED);
}

/* Some bytes go up or down, or the connection breaks; or another one is made. */
static void line(uint32_t delay)
{
    if (attempt == 0 && pick(8) == 0)
        connect();
    while (attempt != 0 && pick(1 + delay) == 0 && (pick(2) ? carry_up(1 + pick(PIECE)) : carry_down(1 + pick(PIECE))))
        ;
    if (attempt != 0 && pick(12) == 0) {
        cut(pick(PIECE), pick(PIECE));
        breaks++;
    }
}

/* Whether the bytes are these runes in UTF-8, of which each is in ASCII or SIGN. */
static bool is_spelled(const struct text *text, const uint8_t *bytes, size_t count)
{
    size_t at = 0;
    for (uint32_t i = 0; i < text->len; i++) {
        if (text->runes[i] == SIGN) {
            if (count - at < 3 || memcmp(bytes + at, "\xE2\x82\xAC", 3) != 0)
                return false;
            at += 3;
        } else if (at == count || bytes[at++] != text->runes[i]) {
            return false;
        }
    }
    return at == count;
}

/* All is at rest: what is shown is the host's text. */
static void rest(void)
{
    static uint8_t bytes[4 * MOST], shown[4 * MOST];
    uint32_t waiting = 9, runes = 0, len = 0;
    size_t count = 0, shown_count = 0;
    bool has = false;
    if (attempt == 0)
        connect();
    settle();
    event(SAM_EVENT_LOAD, EDITED, 0, MOST);
    settle();
    WANT(sam_client_has_all(&client, &has), SAM_OK);
    WANT(has, true);
    WANT(sam_client_waiting(&client, EDITED, &waiting), SAM_OK);
    WANT(waiting, 0);
    WANT(sam_host_text(&host, EDITED, 0, bytes, sizeof bytes, &count, &runes), SAM_OK);
    WANT(sam_host_len(&host, EDITED, &len), SAM_OK);
    WANT(runes == len && runes == copy.len, 1);
    WANT(sam_client_text(&client, EDITED, 0, shown, count, &shown_count, &runes), SAM_OK);
    WANT(shown_count == count && memcmp(shown, bytes, count) == 0, 1);
    WANT(count_signs(&copy), signs);
    WANT(notes_up == notes && notes_down == notes && refused == 0, 1);
    if (!sends && writes > 0) {
        WANT(sam_host_saved(&host, EDITED, 0, bytes, sizeof bytes, &count, &runes), SAM_OK);
        WANT(runes, saved.len);
        WANT(is_spelled(&saved, bytes, count), true);
    }
    if (!sends)
        WANT(alone.len == copy.len && memcmp(alone.runes, copy.runes, copy.len * sizeof *copy.runes) == 0, 1);
}

int main(int argc, char **argv)
{
    if (argc != 3)
        return 2;
    unsigned long seed = strtoul(argv[1], NULL, 10), steps = strtoul(argv[2], NULL, 10);
    begin_picks(seed);
    sends = seed % 2 == 1;
    uint32_t delay = 1 + pick(6); /* a greater one has more wait */
    setvbuf(stdout, NULL, _IONBF, 0);
    begin();
    for (unsigned long i = 0; i < steps; i++) {
        user();
        line(delay);
    }
    rest();
    printf("%lu edits, %lu writes, %lu lines, %lu notes, %lu breaks, %lu splices: all as the host has them\n", edits, writes, lines, notes,
           breaks, splices_told);
    WANT(sam_host_free(&host), SAM_OK);
    WANT(sam_link_free(&host_end), SAM_OK);
    WANT(sam_client_free(&client), SAM_OK);
    return 0;
}
