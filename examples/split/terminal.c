/* terminal SOCKET: shows the text that a host serves there, and edits it. ^W saves, ^C leaves. */
#define _GNU_SOURCE
#include "sulgrevad.h"

#include <errno.h>
#include <locale.h>
#include <poll.h>
#include <stdio.h>
#include <stdlib.h>
#include <string.h>
#include <sys/random.h>
#include <sys/socket.h>
#include <sys/un.h>
#include <termios.h>
#include <time.h>
#include <unistd.h>
#include <wchar.h>

enum { TAG = 1, PIECE = 4096, MOST_RUNES = 1000000, SHOWN = 1000 /* runes on each side of the caret */, LINES_ABOVE = 12, LINES = 22 };
enum { LONGEST = 1000 /* milliseconds of one sleep: then what had no memory is tried again */, LEAVE = 3 /* ^C */ };

static sam_client client = SAM_CLIENT_INIT;
static int line = -1; /* the connection, and its number */
static uint64_t attempt;
static uint8_t out[PIECE]; /* of it, what the connection had no room for */
static size_t out_start, out_end;
static uint32_t caret;
static char told[PIECE + 1]; /* what the host has said last, or why a key did nothing */
static struct termios usual;

static uint64_t now(void)
{
    struct timespec time;
    clock_gettime(CLOCK_MONOTONIC, &time);
    return (uint64_t)time.tv_sec * 1000 + (uint64_t)time.tv_nsec / 1000000;
}

static void must(sam_status status)
{
    if (status != SAM_OK) {
        fprintf(stderr, "%s\n", sam_status_text(status));
        exit(1);
    }
}

static void restore_screen(void)
{
    tcsetattr(0, TCSANOW, &usual);
}

/* ---- The connection ---- */

static bool connect_to(const char *place)
{
    struct sockaddr_un address = {.sun_family = AF_UNIX};
    snprintf(address.sun_path, sizeof address.sun_path, "%s", place);
    line = socket(AF_UNIX, SOCK_STREAM, 0);
    out_start = out_end = 0;
    return line >= 0 && connect(line, (struct sockaddr *)&address, sizeof address) == 0;
}

static void hang_up(void)
{
    if (line >= 0)
        close(line);
    line = -1;
}

/* Does what the client wants of the connection at this time. */
static void keep_line(const char *place)
{
    sam_line_details details;
    uint32_t tick = SAM_TICK_ASK;
    while (tick != SAM_TICK_NOTHING) {
        must(sam_client_tick(&client, now(), &tick));
        if (tick == SAM_TICK_CONNECT || tick == SAM_TICK_DROP)
            hang_up();
        if (tick == SAM_TICK_CONNECT && connect_to(place)) {
            must(sam_client_connected(&client, now(), &attempt));
        } else if (tick == SAM_TICK_CONNECT) {
            hang_up();
            must(sam_client_not_connected(&client, now()));
        }
    }
    must(sam_client_describe(&client, now(), &details));
    if (details.state == SAM_LINE_LOST)
        must(details.why);
}

static void receive(void)
{
    uint8_t bytes[PIECE];
    ssize_t count = recv(line, bytes, sizeof bytes, MSG_DONTWAIT);
    if (count < 0 && errno == EAGAIN)
        return;
    if (count <= 0 || sam_client_receive(&client, attempt, bytes, (size_t)count, now()) != SAM_OK) {
        must(sam_client_broken(&client, attempt, now())); /* it comes again over the next one, also what memory was out for */
        hang_up();
    }
}

static void send_out(void)
{
    while (line >= 0) {
        if (out_start == out_end) {
            out_start = out_end = 0;
            if (sam_client_take_out(&client, attempt, out, sizeof out, &out_end) != SAM_OK || out_end == 0)
                return;
        }
        ssize_t count = send(line, out + out_start, out_end - out_start, MSG_DONTWAIT | MSG_NOSIGNAL);
        if (count < 0)
            return; /* poll tells when there is room */
        out_start += (size_t)count;
    }
}

/* ---- The text ---- */

/* Moves the caret with the text. */
static void move_caret(const sam_splice *splice)
{
    if (splice->tag != TAG || splice->kind == SAM_SPLICE_FILLED)
        return;
    if (splice->kind == SAM_SPLICE_EMPTIED)
        caret = 0;
    else if (splice->place < caret && splice->kind == SAM_SPLICE_CAME)
        caret += splice->count;
    else if (splice->place < caret)
        caret -= splice->count < caret - splice->place ? splice->count : caret - splice->place;
}

static void go_on(void)
{
    sam_client_event kind = SAM_CLIENT_IDLE;
    sam_splice splice;
    sam_status status;
    sam_did did;
    size_t len = 0;
    do {
        status = sam_client_next_event(&client, now(), &kind, &did);
        while (sam_client_next_splice(&client, &splice) == SAM_OK)
            move_caret(&splice);
        if (status == SAM_OK && kind == SAM_CLIENT_NOTE && sam_client_note(&client, (uint8_t *)told, PIECE, &len) == SAM_OK)
            told[len] = '\0';
    } while (status == SAM_OK && kind != SAM_CLIENT_IDLE);
    if (status != SAM_UNFINISHED)
        must(status);
}

static void ask(sam_event_kind kind, uint32_t number)
{
    sam_event event = {.kind = kind, .tag = TAG, .number = number, .version = 2};
    uint64_t request;
    sam_status status = sam_client_ask(&client, &event, NULL, 0, &request);
    snprintf(told, sizeof told, "%s", status == SAM_OK ? "" : sam_status_text(status));
}

static void edit(uint32_t start, uint32_t end, const char *utf8, size_t len)
{
    sam_status status = sam_client_replace(&client, TAG, start, end, (const uint8_t *)utf8, len);
    if (status == SAM_OK)
        caret = start + (len > 0);
    else
        snprintf(told, sizeof told, "%s", sam_status_text(status));
}

/* ---- Keys and screen ---- */

/* Says how many bytes the key has that the bytes begin with; 0 if it isn't whole. */
static size_t size_of(const char *keys, size_t len)
{
    uint8_t first = (uint8_t)keys[0];
    size_t size = first < 0xC0 ? 1 : first < 0xE0 ? 2 : first < 0xF0 ? 3 : 4;
    if (first == 27 && (len == 1 || keys[1] == '[' || keys[1] == 'O')) /* as of an arrow: up to its last letter */
        for (size = 3; size <= len && (keys[size - 1] < '@' || keys[size - 1] > '~');)
            size++;
    return len < size ? 0 : size;
}

/* Does what the key does that the bytes begin with, and says how many bytes it has; 0 if it isn't whole, or the text isn't open yet. */
static size_t press(const char *keys, size_t len)
{
    uint8_t first = (uint8_t)keys[0];
    size_t size = size_of(keys, len);
    uint32_t runes = 0;
    if (size == 0 || sam_client_len(&client, TAG, &runes) != SAM_OK)
        return 0;
    if (first == 27 && size == 3) {
        caret += keys[2] == 'C' && caret < runes;
        caret -= keys[2] == 'D' && caret > 0;
    } else if (first == 23)
        ask(SAM_EVENT_WRITE, 0);
    else if (first == 127 && caret > 0)
        edit(caret - 1, caret, "", 0);
    else if (first == '\r' || first == '\n')
        edit(caret, caret, "\n", 1);
    else if (first == '\t' || (first >= 32 && first != 127))
        edit(caret, caret, keys, size);
    return size;
}

static char keys[PIECE]; /* what was read and is not done yet */
static size_t keys_len;
static bool is_told; /* that the host hasn't all, by the last key */

/* Reads keys. Returns whether there were any. */
static bool read_keys(void)
{
    ssize_t count = read(0, keys + keys_len, sizeof keys - keys_len);
    keys_len += count > 0 ? (size_t)count : 0;
    return count > 0;
}

/* Does what the keys do, in their order. Returns whether the user wants to leave. */
static bool press_keys(void)
{
    size_t start = 0, size = 1;
    while (start < keys_len && keys[start] != LEAVE && (size = press(keys + start, keys_len - start)) > 0)
        start += size;
    is_told = is_told && start == 0;
    char *leave = memchr(keys + start, LEAVE, keys_len - start); /* also behind keys that wait for the text */
    if (leave != NULL) {
        keys_len--;
        memmove(leave, leave + 1, (size_t)(keys + keys_len - leave));
    }
    keys_len -= start;
    memmove(keys, keys + start, keys_len);
    return leave != NULL;
}

static void draw(void)
{
    static uint32_t runes[2 * SHOWN];
    sam_line_details details;
    uint32_t start = caret < SHOWN ? 0 : caret - SHOWN, count = 0, at = caret - start, lines = 0;
    must(sam_client_describe(&client, now(), &details));
    printf("\033[H\033[J\033[?7l%s%s\n", details.is_broken ? "no connection " : "", told);
    if (sam_client_read(&client, TAG, start, runes, 2 * SHOWN, &count) != SAM_OK)
        count = at = 0;
    while (at > 0 && (lines += runes[at - 1] == '\n') <= LINES_ABOVE)
        at--;
    for (lines = 0; at <= count && lines < LINES; at++) {
        if (start + at == caret)
            putchar('|');
        if (at < count)
            printf("%lc", (wint_t)(runes[at] == SAM_GAP ? '_' : runes[at]));
        lines += at < count && runes[at] == '\n';
    }
    fflush(stdout);
}

/* Whether the host has all, or the user was told that it hasn't. */
static bool may_leave(void)
{
    bool has_all = false, may = is_told;
    must(sam_client_has_all(&client, &has_all));
    snprintf(told, sizeof told, "the host hasn't all yet; ^C again leaves");
    is_told = !has_all;
    return has_all || may;
}

int main(int argc, char **argv)
{
    uint8_t id[SAM_LINK_ID_BYTES];
    uint64_t left = 0;
    if (argc != 2 || getrandom(id, sizeof id, 0) != sizeof id || tcgetattr(0, &usual) != 0)
        return 2;
    struct termios raw = usual;
    raw.c_lflag &= ~(tcflag_t)(ICANON | ECHO | ISIG);
    tcsetattr(0, TCSANOW, &raw);
    atexit(restore_screen);
    setlocale(LC_ALL, "");
    must(sam_client_new(&client, id, true, now())); /* it takes over what an older terminal has left */
    ask(SAM_EVENT_OFFER_VERSION, 0);
    ask(SAM_EVENT_OPEN, 0);
    ask(SAM_EVENT_LOAD, MOST_RUNES);
    for (bool leaves = false; !leaves;) {
        if (sam_client_due_in(&client, now(), &left) != SAM_OK || left > LONGEST)
            left = LONGEST;
        struct pollfd ends[2] = {{.fd = keys_len < sizeof keys ? 0 : -1, .events = POLLIN}, {.fd = line, .events = POLLIN}};
        ends[1].events |= out_start < out_end ? POLLOUT : 0;
        if (poll(ends, 2, (int)left) < 0 && errno != EINTR)
            return 1;
        if (ends[1].revents & (POLLIN | POLLHUP | POLLERR))
            receive();
        bool has_ended = ends[0].revents != 0 && !read_keys();
        keep_line(argv[1]);
        go_on(); /* it may open the text */
        leaves = (press_keys() || has_ended) && may_leave();
        go_on();
        send_out();
        draw();
    }
    return 0;
}
