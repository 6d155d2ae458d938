/*
 * host FILE: holds the text of a file, and serves it at the socket FILE.socket to one terminal after another. What it took stands in
 * FILE.journal, so a host that is killed goes on when it is started again.
 */
#define _GNU_SOURCE
#include "sulgrevad.h"

#include <errno.h>
#include <fcntl.h>
#include <libgen.h>
#include <poll.h>
#include <stdio.h>
#include <stdlib.h>
#include <string.h>
#include <sys/random.h>
#include <sys/socket.h>
#include <sys/stat.h>
#include <sys/un.h>
#include <unistd.h>

enum { TAG = 1, PIECE = 4096, MOST_TEXT = 4000000, MOST_RECORD = MOST_TEXT + 300, SECONDS = 5 /* that a connection may block */ };

static sam_server server = SAM_SERVER_INIT;
static FILE *journal;
static uint64_t salt, records, durable; /* of the journal: its random number, its records, and how many bytes of it are safe */
static char path[108], new_path[120], journal_path[120], new_journal[130];
static uint8_t text[MOST_TEXT + 1], record[MOST_RECORD];
static int line = -1; /* the connection, and its number */
static uint64_t attempt;

static void need(bool holds, const char *why)
{
    if (!holds) {
        fprintf(stderr, "%s: %s\n", why, strerror(errno));
        exit(1);
    }
}

static void must(sam_status status)
{
    need(status == SAM_OK, sam_status_text(status));
}

/* Has the names of the folder safe on the disk. */
static bool sync_folder(void)
{
    char folder[sizeof path];
    int file = open(dirname(strcpy(folder, path)), O_RDONLY | O_DIRECTORY);
    bool is_safe = file >= 0 && fsync(file) == 0;
    if (file >= 0)
        close(file);
    return is_safe;
}

/* Writes the text as the terminal had it written, under another name first: so the file is never half written. */
static bool save(void)
{
    size_t len = 0;
    uint32_t runes = 0;
    must(sam_server_saved(&server, TAG, 0, text, sizeof text, &len, &runes));
    FILE *file = fopen(new_path, "wb");
    if (file == NULL)
        return false;
    bool is_whole = fwrite(text, 1, len, file) == len && fflush(file) == 0 && fsync(fileno(file)) == 0;
    return (fclose(file) == 0) & is_whole && rename(new_path, path) == 0 && sync_folder();
}

static void append(const uint8_t *body, size_t len)
{
    sam_record_frame frame;
    must(sam_journal_frame(salt, records++, durable, body, len, &frame));
    need(fwrite(frame.front, sizeof frame.front, 1, journal) == 1 && fwrite(body, 1, len, journal) == len &&
             fwrite(frame.back, sizeof frame.back, 1, journal) == 1,
         journal_path);
}

/* Has all records safe on the disk, and does what the server asks for. */
static void settle(void)
{
    sam_effect effect;
    for (;;) {
        size_t len = 0, count = 0;
        for (; sam_server_next_record(&server, record, sizeof record, &len) == SAM_OK; count++)
            append(record, len);
        need(fflush(journal) == 0 && fdatasync(fileno(journal)) == 0, journal_path);
        durable = (uint64_t)ftell(journal);
        must(sam_server_durable(&server, count));
        if (sam_server_next_effect(&server, &effect) != SAM_OK)
            return;
        char told[PIECE] = "";
        bool is_text = effect.tag == TAG; /* and no file that a terminal has made */
        if (effect.kind == SAM_EFFECT_WRITE && !(is_text && save())) {
            snprintf(told, sizeof told, "not written: %s", is_text ? strerror(errno) : "it is another file");
            must(sam_server_mark_dirty(&server, effect.tag));
        }
        if (effect.kind == SAM_EFFECT_WRITE)
            must(sam_server_say(&server, (uint8_t *)told, strlen(told)));
        must(sam_server_effect_done(&server, 0));
    }
}

/* Begins the session of a terminal, with the text of the one before or that of the file, and a journal of its own. */
static void begin(const uint8_t id[SAM_LINK_ID_BYTES])
{
    uint8_t head[SAM_JOURNAL_HEAD_BYTES];
    size_t len = 0;
    uint32_t runes = 0;
    uint16_t tag = 0;
    if (sam_server_text(&server, TAG, 0, text, sizeof text, &len, &runes) != SAM_OK) {
        FILE *file = fopen(path, "rb");
        need(file != NULL, path);
        len = fread(text, 1, sizeof text, file);
        need(!ferror(file), path);
        fclose(file);
        errno = EFBIG;
        need(len <= MOST_TEXT, path);
    }
    sam_server_free(&server);
    must(sam_server_new(&server, id));
    must(sam_server_add_file(&server, (const uint8_t *)"text", 4, text, len, &tag));
    if (journal != NULL)
        fclose(journal);
    need((journal = fopen(new_journal, "wb")) != NULL, new_journal);
    need(getrandom(&salt, sizeof salt, 0) == sizeof salt, "getrandom");
    records = durable = 0;
    must(sam_journal_head(salt, head));
    need(fwrite(head, sizeof head, 1, journal) == 1, new_journal);
    append(id, SAM_LINK_ID_BYTES); /* the first record says whose session it is */
    settle();
    need(rename(new_journal, journal_path) == 0 && sync_folder(), journal_path);
}

/* Goes on with the session of the journal. What a crash has torn off its end is cut. */
static void resume(void)
{
    sam_recovery recovery = SAM_RECOVERY_INIT;
    sam_record found = {.next = SAM_JOURNAL_HEAD_BYTES};
    struct stat entry;
    size_t end = 0;
    need(fstat(fileno(journal), &entry) == 0, journal_path);
    uint8_t *bytes = malloc((size_t)entry.st_size);
    need(bytes != NULL && fread(bytes, 1, (size_t)entry.st_size, journal) == (size_t)entry.st_size, journal_path);
    must(sam_journal_read(bytes, (size_t)entry.st_size, &salt, &records, &end));
    for (uint64_t number = 0; number < records; number++) {
        must(sam_journal_next(bytes, end, found.next, salt, number, &found));
        must(number == 0 ? sam_recovery_new(&recovery, bytes + found.body) : sam_recovery_take(&recovery, bytes + found.body, found.len));
    }
    must(sam_recovery_finish(&recovery, &server));
    free(bytes);
    need(ftruncate(fileno(journal), (off_t)end) == 0 && fseek(journal, (long)end, SEEK_SET) == 0, journal_path);
    settle();
}

static void hang_up(void)
{
    if (line >= 0)
        close(line);
    line = -1;
}

/* Takes a connection in the place of the one before, or says why not. */
static void greet(int connection)
{
    uint8_t hello[SAM_LINK_HELLO_BYTES], refusal[SAM_LINK_HELLO_BYTES], id[SAM_LINK_ID_BYTES];
    struct timeval limit = {.tv_sec = SECONDS};
    uint32_t what = 0;
    uint64_t number = 0;
    setsockopt(connection, SOL_SOCKET, SO_RCVTIMEO, &limit, sizeof limit);
    setsockopt(connection, SOL_SOCKET, SO_SNDTIMEO, &limit, sizeof limit);
    ssize_t count = recv(connection, hello, sizeof hello, MSG_WAITALL);
    sam_status status = sam_link_read_hello(hello, count > 0 ? (size_t)count : 0, &what, id, &number);
    if (status == SAM_OK) {
        status = sam_server_accept(&server, hello, sizeof hello);
        bool has_none = status == SAM_LINK_OTHER_SESSION || sam_is_stop(status); /* the session of this terminal, or one that goes on */
        if (status == SAM_NO_HANDLE || (has_none && what == SAM_LINK_TAKE_OVER)) {
            begin(id);
            status = sam_server_accept(&server, hello, sizeof hello);
        }
    }
    if (status == SAM_OK) {
        hang_up();
        line = connection, attempt = number;
        return;
    }
    if (sam_link_write_refusal(status, hello, count > 0 ? (size_t)count : 0, refusal) == SAM_OK)
        send(connection, refusal, sizeof refusal, MSG_NOSIGNAL);
    close(connection);
}

/* Carries bytes both ways. What a connection that breaks has lost goes over the next one. */
static void carry(bool has_come)
{
    uint8_t bytes[PIECE];
    size_t len = 0;
    if (has_come) {
        ssize_t count = recv(line, bytes, sizeof bytes, MSG_DONTWAIT);
        if (count <= 0 || sam_server_receive(&server, attempt, bytes, (size_t)count) != SAM_OK)
            hang_up();
    }
    need(sam_server_go_on(&server) != SAM_UNFINISHED, "out of memory"); /* the journal has all */
    if (journal != NULL)
        settle();
    while (line >= 0 && sam_server_take_out(&server, attempt, bytes, sizeof bytes, &len) == SAM_OK && len > 0)
        if (send(line, bytes, len, MSG_NOSIGNAL) != (ssize_t)len)
            hang_up();
}

int main(int argc, char **argv)
{
    struct sockaddr_un address = {.sun_family = AF_UNIX};
    need(argc == 2 && strlen(argv[1]) + sizeof ".socket" <= sizeof address.sun_path, "usage: host FILE");
    snprintf(path, sizeof path, "%s", argv[1]);
    snprintf(new_path, sizeof new_path, "%s.new", path);
    snprintf(journal_path, sizeof journal_path, "%s.journal", path);
    snprintf(new_journal, sizeof new_journal, "%s.new", journal_path);
    strcat(strcpy(address.sun_path, path), ".socket");
    int listener = socket(AF_UNIX, SOCK_STREAM, 0);
    bool is_served = connect(listener, (struct sockaddr *)&address, sizeof address) == 0;
    errno = EADDRINUSE;
    need(!is_served, address.sun_path); /* two hosts would spoil one journal */
    if ((journal = fopen(journal_path, "r+b")) != NULL)
        resume();
    unlink(address.sun_path);
    need(listener >= 0 && bind(listener, (struct sockaddr *)&address, sizeof address) == 0 && listen(listener, 5) == 0, address.sun_path);
    for (;;) {
        struct pollfd ends[2] = {{.fd = listener, .events = POLLIN}, {.fd = line, .events = POLLIN}};
        need(poll(ends, 2, -1) >= 0, "poll");
        if (ends[0].revents != 0)
            greet(accept(listener, NULL, NULL));
        carry(line >= 0 && ends[0].revents == 0 && ends[1].revents != 0);
    }
}
