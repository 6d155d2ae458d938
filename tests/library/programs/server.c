/*
 * server: each call of a durable server and of a recovery where it does its work, and each status that it can return but for full counts,
 * and for SAM_NO_MEMORY, SAM_UNFINISHED and SAM_WAITING, which crashes.c meets. The bytes stand in docs/reference/LINK.md and PROTOCOL.md.
 * Calls that are said to take no memory ask for none (reading.h). It ends with status 0, or 1 and the line that failed.
 */
#include "reading.h"

#include "link_bytes.h"
#include "wanting.h"

#define NO_BYTES "\0\0\0\0\0\0\0\0\0\0\0\0\0\0\0\0"

/* Version 2, file 1 is opened, a rune is typed, the file is written, and another is typed; in one packet. */
#define OPENED "\1\0\2\0\2\6\0\2\0\1"
#define TYPED(rune) "\x08\0\7\0\1\0\0\0\0" rune
#define WRITTEN "\x0d\0\2\0\1"
#define CLOSED "\x0e\0\2\0\1"
#define SESSION DATA "\0\x23" OPENED TYPED("b") WRITTEN TYPED("c")

static sam_server server = SAM_SERVER_INIT;

static void no_server(sam_server *none)
{
    sam_server heir = SAM_SERVER_INIT;
    uint8_t bytes[8] = "unused";
    size_t len = 5;
    uint16_t tag = 6;
    uint32_t runes = 7;
    uint64_t count = 10;
    bool is = true;
    sam_effect effect = {8, SAM_EFFECT_HEAR, 9};
    WANT(sam_server_free(none), SAM_NO_HANDLE);
    WANT(sam_server_add_file(none, BYTES("n"), BYTES("t"), &tag), SAM_NO_HANDLE);
    WANT(sam_server_accept(none, BYTES("x")), SAM_NO_HANDLE);
    WANT(sam_server_receive(none, 0, BYTES("x")), SAM_NO_HANDLE);
    WANT(sam_server_broken(none, 0), SAM_NO_HANDLE);
    WANT(sam_server_say(none, BYTES("x")), SAM_NO_HANDLE);
    WANT(sam_server_mark_dirty(none, 0), SAM_NO_HANDLE);
    WANT(sam_server_ask(none), SAM_NO_HANDLE);
    WANT(sam_server_acknowledge(none), SAM_NO_HANDLE);
    WANT(sam_server_go_on(none), SAM_NO_HANDLE);
    WANT(sam_server_record_len(none, &len), SAM_NO_HANDLE);
    WANT(sam_server_next_record(none, bytes, sizeof bytes, &len), SAM_NO_HANDLE);
    WANT(sam_server_durable(none, 0), SAM_NO_HANDLE);
    WANT(sam_server_take_out(none, 0, bytes, sizeof bytes, &len), SAM_NO_HANDLE);
    WANT(sam_server_next_effect(none, &effect), SAM_NO_HANDLE);
    WANT(sam_server_heard(none, bytes, sizeof bytes, &len), SAM_NO_HANDLE);
    WANT(sam_server_closed_name(none, bytes, sizeof bytes, &len), SAM_NO_HANDLE);
    WANT(sam_server_closed_text(none, bytes, sizeof bytes, &len), SAM_NO_HANDLE);
    WANT(sam_server_effect_done(none, 0), SAM_NO_HANDLE);
    WANT(sam_server_is_done(none, &is), SAM_NO_HANDLE);
    WANT(sam_server_tags(none, &len), SAM_NO_HANDLE);
    WANT(sam_server_has_file(none, 0, &is), SAM_NO_HANDLE);
    WANT(sam_server_name(none, 0, bytes, sizeof bytes, &len), SAM_NO_HANDLE);
    WANT(sam_server_len(none, 0, &runes), SAM_NO_HANDLE);
    WANT(sam_server_is_dirty(none, 0, &is), SAM_NO_HANDLE);
    WANT(sam_server_text(none, 0, 0, bytes, sizeof bytes, &len, &runes), SAM_NO_HANDLE);
    WANT(sam_server_saved_len(none, 0, &runes), SAM_NO_HANDLE);
    WANT(sam_server_saved(none, 0, 0, bytes, sizeof bytes, &len, &runes), SAM_NO_HANDLE);
    WANT(sam_server_heir(none, id, &heir), SAM_NO_HANDLE);
    WANT(sam_server_free(&heir), SAM_NO_HANDLE);
    WANT(sam_server_is_open(none, 0, &is), SAM_NO_HANDLE);
    WANT(sam_server_snarf_len(none, &runes), SAM_NO_HANDLE);
    WANT(sam_server_snarf(none, 0, bytes, sizeof bytes, &len, &runes), SAM_NO_HANDLE);
    WANT(sam_server_attempt(none, &count), SAM_NO_HANDLE);
    WANT(sam_server_put_count(none, &count), SAM_NO_HANDLE);
    WANT(sam_server_acknowledged(none, &count), SAM_NO_HANDLE);
    WANT(sam_server_received(none, &count), SAM_NO_HANDLE);
    WANT(memcmp(bytes, "unused", 7) == 0 && len == 5 && tag == 6 && runes == 7 && count == 10 && is, 1);
    WANT(effect.len == 8 && effect.kind == SAM_EFFECT_HEAR && effect.tag == 9, 1);
}

static void no_recovery(sam_recovery *none)
{
    sam_server other = SAM_SERVER_INIT;
    WANT(sam_recovery_free(none), SAM_NO_HANDLE);
    WANT(sam_recovery_take(none, BYTES("\5")), SAM_NO_HANDLE);
    WANT(sam_recovery_finish(none, &other), SAM_NO_HANDLE);
    WANT(sam_server_free(&other), SAM_NO_HANDLE);
}

/* The record that is next has these bytes, and it is durable. */
static void wants_record(const char *body, size_t len)
{
    uint8_t bytes[128] = "unused";
    size_t count = 99;
    WANT(READ(sam_server_record_len(&server, &count)), SAM_OK);
    WANT(count, len);
    count = 99;
    WANT(sam_server_next_record(&server, bytes, len - 1, &count), SAM_NO_ROOM);
    WANT(count == 99 && memcmp(bytes, "unused", 7) == 0, 1);
    WANT(READ(sam_server_next_record(&server, bytes, sizeof bytes, &count)), SAM_OK);
    WANT(count == len && memcmp(bytes, body, len) == 0, 1);
    WANT(READ(sam_server_durable(&server, 1)), SAM_OK);
}
#define RECORD(body) wants_record(body, sizeof(body) - 1)

/* What goes out on connection 1, no more and no less. */
static void wants_out(const char *wanted, size_t len)
{
    uint8_t bytes[256] = "unused";
    size_t count = 99;
    WANT(READ(sam_server_take_out(&server, 1, bytes, sizeof bytes, &count)), SAM_OK);
    WANT(count == len && memcmp(bytes, wanted, len) == 0, 1);
}
#define OUT(wanted) wants_out(wanted, sizeof(wanted) - 1)

/* Nothing is taken of these, and no record is made. */
static void refused_first(void)
{
    static uint8_t letters[1000001];
    uint16_t tag = 99;
    size_t len = 99;
    uint8_t bytes[8];
    memset(letters, 'x', sizeof letters);
    WANT(sam_server_add_file(&server, BYTES("\xFF"), BYTES("x"), &tag), SAM_NOT_TEXT);
    WANT(sam_server_add_file(&server, letters, 65, BYTES("x"), &tag), SAM_ADD_TOO_LONG);
    WANT(sam_server_add_file(&server, BYTES("x"), letters, sizeof letters, &tag), SAM_ADD_TOO_LONG);
    WANT(sam_server_accept(&server, BYTES("GET")), SAM_LINK_NOT_A_LINK);
    WANT(sam_server_accept(&server, BYTES("\x89samlink\2")), SAM_LINK_OTHER_VERSION);
    WANT(sam_server_accept(&server, BYTES(MARK "\5")), SAM_LINK_BAD_HELLO);
    WANT(sam_server_accept(&server, BYTES(MARK "\1")), SAM_NONE);
    WANT(sam_server_accept(&server, BYTES(HELLO("\4", "\1", "\0"))), SAM_LINK_BAD_HELLO);
    WANT(sam_server_accept(&server, BYTES(MARK "\2" NO_BYTES EIGHT("\1") EIGHT("\0"))), SAM_LINK_NO_SESSION);
    WANT(sam_server_accept(&server, BYTES(MARK "\1" NO_BYTES EIGHT("\1") EIGHT("\0"))), SAM_LINK_OTHER_SESSION);
    WANT(sam_server_accept(&server, BYTES(HELLO("\1", "\0", "\0"))), SAM_LINK_OLD_ATTEMPT);
    WANT(sam_server_accept(&server, BYTES(HELLO("\1", "\1", "\1"))), SAM_LINK_WRONG_COUNT);
    WANT(sam_server_receive(&server, 1, BYTES("x")), SAM_LINK_NOT_OPEN);
    WANT(sam_server_say(&server, letters, SAM_LINK_MOST_NOTE + 1), SAM_LINK_TOO_LONG);
    WANT(sam_server_mark_dirty(&server, 1), SAM_NONE);
    WANT(sam_server_mark_dirty(&server, 0), SAM_MARK_COMMAND_FILE);
    WANT(sam_server_effect_done(&server, 0), SAM_NONE);
    WANT(READ(sam_server_go_on(&server)), SAM_OK);
    WANT(READ(sam_server_take_out(&server, 1, bytes, sizeof bytes, &len)), SAM_LINK_NOT_OPEN);
    WANT(READ(sam_server_record_len(&server, &len)), SAM_NONE);
    WANT(READ(sam_server_next_record(&server, bytes, sizeof bytes, &len)), SAM_NONE);
    WANT(tag == 99 && len == 99, 1);
}

/* Each call that takes something makes its record, and nothing goes out that one decides before it is durable. */
static void begins(void)
{
    uint16_t tag = 0;
    uint8_t bytes[8] = "unused";
    size_t count = 99;
    WANT(sam_server_add_file(&server, BYTES("n"), BYTES("a\n"), &tag), SAM_OK);
    WANT(tag, 1);
    WANT(sam_server_mark_dirty(&server, 1), SAM_MARK_NOT_ANNOUNCED);
    WANT(sam_server_say(&server, BYTES("hi")), SAM_OK);
    WANT(sam_server_accept(&server, BYTES(HELLO("\1", "\1", "\0"))), SAM_OK);
    WANT(READ(sam_server_take_out(&server, 1, bytes, sizeof bytes, &count)), SAM_OK);
    WANT(count == 0 && memcmp(bytes, "unused", 7) == 0, 1);
    RECORD("\1" EIGHT("\1") "na\n");
    RECORD("\4hi");
    OUT(""); /* the message is durable, but not the connection that it would go out on */
    RECORD("\2" HELLO("\1", "\1", "\0"));
    OUT(HELLO("\4", "\1", "\0") NOTE "\0\2hi");
    WANT(sam_server_ask(&server), SAM_OK);
    WANT(sam_server_acknowledge(&server), SAM_OK);
    RECORD("\6");
    OUT(ASK "\0\0");
    RECORD("\5");
    OUT(ACKNOWLEDGEMENT "\0\x08" EIGHT("\0"));
}

#define OTHER_ID "another sessions"
static const uint8_t *const other_id = (const uint8_t *)OTHER_ID;

/* While an effect waits no other server begins, and both handles stay as they are. */
static void no_heir_before_the_effect(void)
{
    sam_server heir = SAM_SERVER_INIT;
    uint32_t runes = 99;
    WANT(sam_server_heir(&server, other_id, &heir), SAM_SERVER_EFFECT_WAITS);
    WANT(sam_server_free(&heir), SAM_NO_HANDLE);
    WANT(sam_server_saved_len(&server, 1, &runes), SAM_OK);
    WANT(runes, 3);
}

/* So far a note of 2 bytes, a question and an acknowledgement were put: 19 bytes with their heads, which the terminal then acknowledges. */
static void counts(void)
{
    uint64_t count = 99;
    WANT(READ(sam_server_attempt(&server, &count)), SAM_OK);
    WANT(count, 1);
    WANT(READ(sam_server_put_count(&server, &count)), SAM_OK);
    WANT(count, 19);
    WANT(READ(sam_server_acknowledged(&server, &count)), SAM_OK);
    WANT(count, 0);
    WANT(READ(sam_server_received(&server, &count)), SAM_OK);
    WANT(count, 0);
    WANT(sam_server_receive(&server, 1, BYTES(ACKNOWLEDGEMENT "\0\x08" EIGHT("\x13"))), SAM_OK);
    RECORD("\3" EIGHT("\1") ACKNOWLEDGEMENT "\0\x08" EIGHT("\x13"));
    WANT(READ(sam_server_acknowledged(&server, &count)), SAM_OK);
    WANT(count, 19);
    WANT(READ(sam_server_received(&server, &count)), SAM_OK);
    WANT(count, 11);
}

/* An effect is handed out once its record is durable, and what was sent behind it waits until it is done. */
static void writes(void)
{
    sam_effect effect = {8, SAM_EFFECT_HEAR, 9};
    uint8_t bytes[8] = "unused";
    size_t len = 99;
    uint32_t runes = 99;
    WANT(READ(sam_server_saved_len(&server, 1, &runes)), SAM_NONE);
    WANT(sam_server_receive(&server, 1, BYTES(SESSION)), SAM_OK);
    WANT(READ(sam_server_next_effect(&server, &effect)), SAM_NONE);
    WANT(sam_server_effect_done(&server, 0), SAM_NONE);
    WANT(effect.len == 8 && effect.kind == SAM_EFFECT_HEAR && effect.tag == 9, 1);
    RECORD("\3" EIGHT("\1") SESSION);
    WANT(READ(sam_server_next_effect(&server, &effect)), SAM_OK);
    WANT(effect.len == 0 && effect.kind == SAM_EFFECT_WRITE && effect.tag == 1, 1);
    WANT(READ(sam_server_heard(&server, bytes, sizeof bytes, &len)), SAM_NONE);
    WANT(READ(sam_server_closed_name(&server, bytes, sizeof bytes, &len)), SAM_NONE);
    WANT(READ(sam_server_closed_text(&server, bytes, sizeof bytes, &len)), SAM_NONE);
    WANT(len == 99 && memcmp(bytes, "unused", 7) == 0, 1);
    WANT(READ(sam_server_saved_len(&server, 1, &runes)), SAM_OK);
    WANT(runes, 3);
    WANT(READ(sam_server_saved(&server, 1, 0, bytes, sizeof bytes, &len, &runes)), SAM_OK);
    WANT(len == 3 && runes == 3 && memcmp(bytes, "ba\n", 3) == 0, 1);
    WANT(READ(sam_server_text(&server, 1, 1, bytes, sizeof bytes, &len, &runes)), SAM_OK);
    WANT(len == 2 && runes == 2 && memcmp(bytes, "a\n", 2) == 0, 1); /* "c" waits */
    no_heir_before_the_effect();
    WANT(sam_server_mark_dirty(&server, 1), SAM_OK);
    WANT(sam_server_effect_done(&server, 258), SAM_OK);
    RECORD("\x08\0\1");
    RECORD("\7\0\0\0\0\0\0\1\2");
    WANT(READ(sam_server_next_effect(&server, &effect)), SAM_NONE);
}

static void hears(void)
{
    sam_effect effect = {0, 0, 9};
    uint8_t bytes[8] = "unused";
    size_t len = 99;
    WANT(sam_server_receive(&server, 1, BYTES(NOTE "\0\3yes")), SAM_OK);
    WANT(READ(sam_server_heard(&server, bytes, sizeof bytes, &len)), SAM_NONE);
    RECORD("\3" EIGHT("\1") NOTE "\0\3yes");
    WANT(READ(sam_server_next_effect(&server, &effect)), SAM_OK);
    WANT(effect.len == 3 && effect.kind == SAM_EFFECT_HEAR && effect.tag == 0, 1);
    WANT(READ(sam_server_closed_name(&server, bytes, sizeof bytes, &len)), SAM_NONE);
    WANT(READ(sam_server_closed_text(&server, bytes, sizeof bytes, &len)), SAM_NONE);
    WANT(READ(sam_server_heard(&server, bytes, 2, &len)), SAM_NO_ROOM);
    WANT(len == 99 && memcmp(bytes, "unused", 7) == 0, 1);
    WANT(READ(sam_server_heard(&server, bytes, 3, &len)), SAM_OK);
    WANT(len == 3 && memcmp(bytes, "yessed", 7) == 0, 1);
    WANT(sam_server_effect_done(&server, 0), SAM_OK);
    RECORD("\7" EIGHT("\0"));
}

static void readers(void)
{
    uint8_t bytes[8] = "unused";
    size_t len = 0;
    uint32_t runes = 0;
    bool is = true;
    WANT(READ(sam_server_is_done(&server, &is)), SAM_OK);
    WANT(is, 0);
    WANT(READ(sam_server_tags(&server, &len)), SAM_OK);
    WANT(len, 2);
    WANT(READ(sam_server_has_file(&server, 2, &is)), SAM_OK);
    WANT(is, 0);
    WANT(READ(sam_server_has_file(&server, 1, &is)), SAM_OK);
    WANT(is, 1);
    WANT(READ(sam_server_name(&server, 2, bytes, sizeof bytes, &len)), SAM_NONE);
    WANT(READ(sam_server_name(&server, 1, bytes, sizeof bytes, &len)), SAM_OK);
    WANT(len == 1 && bytes[0] == 'n', 1);
    WANT(READ(sam_server_len(&server, 2, &runes)), SAM_NONE);
    WANT(READ(sam_server_len(&server, 1, &runes)), SAM_OK);
    WANT(runes, 4);
    WANT(READ(sam_server_is_dirty(&server, 2, &is)), SAM_NONE);
    WANT(READ(sam_server_is_dirty(&server, 1, &is)), SAM_OK);
    WANT(is, 1);
    WANT(READ(sam_server_text(&server, 2, 0, bytes, sizeof bytes, &len, &runes)), SAM_NONE);
    WANT(READ(sam_server_text(&server, 1, 0, bytes, sizeof bytes, &len, &runes)), SAM_OK);
    WANT(len == 4 && runes == 4 && memcmp(bytes, "cba\n", 4) == 0, 1);
    WANT(READ(sam_server_saved_len(&server, 2, &runes)), SAM_NONE);
    WANT(READ(sam_server_saved(&server, 2, 0, bytes, sizeof bytes, &len, &runes)), SAM_NONE);
    WANT(READ(sam_server_is_open(&server, 2, &is)), SAM_NONE);
    WANT(READ(sam_server_is_open(&server, 1, &is)), SAM_OK);
    WANT(is, 1);
    WANT(READ(sam_server_is_open(&server, 0, &is)), SAM_OK);
    WANT(is, 0);
}

/* The terminal gives a snarf buffer of three runes, of which one has two bytes. */
static void snarfs(void)
{
    static const char set_snarf[] = DATA "\0\7\x14\0\4a\xc3\xa9z";
    uint8_t bytes[8] = "unused";
    size_t len = 99;
    uint32_t runes = 99;
    WANT(READ(sam_server_snarf_len(&server, &runes)), SAM_OK);
    WANT(runes, 0);
    WANT(sam_server_receive(&server, 1, BYTES(set_snarf)), SAM_OK);
    WANT(READ(sam_server_snarf_len(&server, &runes)), SAM_OK);
    WANT(runes, 3);
    WANT(READ(sam_server_snarf(&server, 1, bytes, sizeof bytes, &len, &runes)), SAM_OK);
    WANT(len == 3 && runes == 2 && memcmp(bytes, "\xc3\xa9z", 3) == 0, 1);
}

/* The other server begins with the file, of which it has a record; no mark and no written text go over, and this one stays as it is. */
static void hands_on(void)
{
    static const char joined[] = "\1" EIGHT("\1") "ncba\n";
    static const char hello[] = MARK "\3" OTHER_ID EIGHT("\1") EIGHT("\0");
    sam_server heir = SAM_SERVER_INIT;
    uint8_t bytes[64];
    size_t len = 0;
    uint32_t runes = 0;
    bool is = true;
    WANT(sam_server_heir(&server, other_id, NULL), SAM_NO_HANDLE);
    WANT(sam_server_heir(&server, other_id, &heir), SAM_OK);
    WANT(sam_server_heir(&server, other_id, &heir), SAM_MADE);
    WANT(sam_server_tags(&heir, &len), SAM_OK);
    WANT(len, 2);
    WANT(sam_server_text(&heir, 1, 0, bytes, sizeof bytes, &len, &runes), SAM_OK);
    WANT(len == 4 && memcmp(bytes, "cba\n", 4) == 0, 1);
    WANT(sam_server_is_dirty(&heir, 1, &is), SAM_OK);
    WANT(is, 0);
    WANT(sam_server_saved_len(&heir, 1, &runes), SAM_NONE);
    WANT(sam_server_accept(&heir, BYTES(HELLO("\3", "\1", "\0"))), SAM_LINK_OTHER_SESSION);
    WANT(sam_server_accept(&heir, BYTES(hello)), SAM_OK);
    WANT(sam_server_take_out(&heir, 1, bytes, sizeof bytes, &len), SAM_OK);
    WANT(len, 0); /* no record of it is durable */
    WANT(sam_server_next_record(&heir, bytes, sizeof bytes, &len), SAM_OK);
    WANT(len == sizeof joined - 1 && memcmp(bytes, joined, len) == 0, 1);
    WANT(sam_server_durable(&heir, 2), SAM_OK);
    WANT(sam_server_take_out(&heir, 1, bytes, sizeof bytes, &len), SAM_OK);
    WANT(len, SAM_LINK_HELLO_BYTES);
    WANT(sam_server_free(&heir), SAM_OK);
    WANT(sam_server_is_dirty(&server, 1, &is), SAM_OK);
    WANT(is, 1);
}

/* A dirty file that closes has an effect with its name and its text, which is gone from the host. What was sent behind it waits. */
static void closes(void)
{
    static const char closing[] = DATA "\0\x13" TYPED("d") CLOSED "\x14\0\1q";
    sam_effect effect = {0, 0, 9};
    uint8_t bytes[8] = "unused";
    size_t len = 99;
    uint32_t runes = 99;
    bool is = true;
    WANT(sam_server_new(&server, id), SAM_OK);
    begins();
    WANT(sam_server_receive(&server, 1, BYTES(DATA "\0\x0a" OPENED)), SAM_OK);
    RECORD("\3" EIGHT("\1") DATA "\0\x0a" OPENED);
    WANT(sam_server_receive(&server, 1, BYTES(closing)), SAM_OK);
    WANT(READ(sam_server_has_file(&server, 1, &is)), SAM_OK);
    WANT(is, 0);
    WANT(READ(sam_server_next_effect(&server, &effect)), SAM_NONE);
    WANT(READ(sam_server_closed_name(&server, bytes, sizeof bytes, &len)), SAM_NONE);
    WANT(READ(sam_server_closed_text(&server, bytes, sizeof bytes, &len)), SAM_NONE);
    RECORD("\3" EIGHT("\1") DATA "\0\x13" TYPED("d") CLOSED "\x14\0\1q");
    WANT(READ(sam_server_next_effect(&server, &effect)), SAM_OK);
    WANT(effect.len == 3 && effect.kind == SAM_EFFECT_CLOSE && effect.tag == 1, 1);
    WANT(READ(sam_server_heard(&server, bytes, sizeof bytes, &len)), SAM_NONE);
    WANT(READ(sam_server_closed_name(&server, bytes, 0, &len)), SAM_NO_ROOM);
    WANT(READ(sam_server_closed_text(&server, bytes, 2, &len)), SAM_NO_ROOM);
    WANT(len == 99 && memcmp(bytes, "unused", 7) == 0, 1);
    WANT(READ(sam_server_closed_name(&server, bytes, sizeof bytes, &len)), SAM_OK);
    WANT(len == 1 && memcmp(bytes, "nnused", 7) == 0, 1);
    WANT(READ(sam_server_closed_text(&server, bytes, sizeof bytes, &len)), SAM_OK);
    WANT(len == 3 && memcmp(bytes, "da\nsed", 7) == 0, 1);
    WANT(READ(sam_server_snarf_len(&server, &runes)), SAM_OK);
    WANT(runes, 0); /* "q" waits */
    WANT(sam_server_effect_done(&server, 0), SAM_OK);
    RECORD("\7" EIGHT("\0"));
    WANT(READ(sam_server_next_effect(&server, &effect)), SAM_NONE);
    WANT(READ(sam_server_snarf_len(&server, &runes)), SAM_OK);
    WANT(runes, 1);
}

/* A clean file that closes has none. */
static void closes_clean(void)
{
    sam_effect effect = {0, 0, 9};
    uint16_t tag = 0;
    bool is = true;
    WANT(sam_server_add_file(&server, BYTES("m"), BYTES("x"), &tag), SAM_OK);
    WANT(tag, 2);
    RECORD("\1" EIGHT("\1") "mx");
    WANT(sam_server_receive(&server, 1, BYTES(DATA "\0\x0a\6\0\2\0\2\x0e\0\2\0\2")), SAM_OK);
    RECORD("\3" EIGHT("\1") DATA "\0\x0a\6\0\2\0\2\x0e\0\2\0\2");
    WANT(READ(sam_server_has_file(&server, 2, &is)), SAM_OK);
    WANT(is, 0);
    WANT(READ(sam_server_next_effect(&server, &effect)), SAM_NONE);
    WANT(sam_server_free(&server), SAM_OK);
}

/* Packets that are wrong end their connection, and the server goes on with the next; a wrong message stops it for good. */
static void stops(void)
{
    static const char no_file[] = DATA "\0\5\6\0\2\0\x63";
    WANT(READ(sam_server_broken(&server, 0)), SAM_OK); /* an older connection */
    WANT(sam_server_receive(&server, 1, BYTES("\0")), SAM_LINK_BAD_KIND);
    WANT(sam_server_receive(&server, 1, BYTES("")), SAM_LINK_NOT_OPEN);
    WANT(sam_server_accept(&server, BYTES(HELLO("\2", "\2", "\x13"))), SAM_OK);
    WANT(sam_server_receive(&server, 2, BYTES(DATA "\0\0")), SAM_LINK_BAD_LENGTH);
    WANT(sam_server_accept(&server, BYTES(HELLO("\2", "\3", "\x13"))), SAM_OK);
    WANT(sam_server_receive(&server, 3, BYTES(ACKNOWLEDGEMENT "\0\x08" EIGHT("\x63"))), SAM_LINK_ACK_AHEAD);
    WANT(sam_server_accept(&server, BYTES(HELLO("\2", "\4", "\x13"))), SAM_OK);
    WANT(READ(sam_server_broken(&server, 4)), SAM_OK);
    WANT(sam_server_receive(&server, 4, BYTES("")), SAM_LINK_NOT_OPEN);
    WANT(sam_server_accept(&server, BYTES(HELLO("\2", "\5", "\x13"))), SAM_OK);
    WANT(sam_server_receive(&server, 5, BYTES(no_file)), SAM_HOST_NO_FILE);
    WANT(sam_server_receive(&server, 5, BYTES("")), SAM_HOST_NO_FILE);
    WANT(sam_server_go_on(&server), SAM_HOST_NO_FILE);
    WANT(sam_server_ask(&server), SAM_HOST_NO_FILE);
    hands_on(); /* also of a server that has stopped */
    WANT(sam_server_free(&server), SAM_OK);
}

/* ---- A recovery ---- */

/* A server of these records, as far as they lead to one; the status of the first that doesn't. */
static sam_status made_of(sam_recovery *recovery, const char *const bodies[], const size_t lens[], size_t count)
{
    WANT(sam_recovery_new(recovery, id), SAM_OK);
    WANT(sam_recovery_new(recovery, id), SAM_MADE);
    for (size_t i = 0; i < count; i++) {
        sam_status status = sam_recovery_take(recovery, (const uint8_t *)bodies[i], lens[i]);
        if (status != SAM_OK)
            return status;
    }
    return SAM_OK;
}

static void recovers(void)
{
    static const char *const bodies[] = {"\1" EIGHT("\1") "na\n", "\2" HELLO("\1", "\1", "\0"), "\3" EIGHT("\1") SESSION, "\7" EIGHT("\0"),
                                         "\7" EIGHT("\0")};
    static const size_t lens[] = {12, 43, 9 + sizeof SESSION - 1, 9, 9};
    sam_recovery recovery = SAM_RECOVERY_INIT;
    sam_effect effect = {0, 0, 9};
    uint8_t bytes[8];
    size_t len = 0;
    uint32_t runes = 0;
    WANT(made_of(&recovery, bodies, lens, 3), SAM_OK);
    WANT(sam_recovery_finish(&recovery, NULL), SAM_NO_HANDLE);
    WANT(sam_recovery_finish(&recovery, &server), SAM_OK);
    no_recovery(&recovery);
    WANT(sam_server_record_len(&server, &len), SAM_NONE);
    WANT(sam_server_take_out(&server, 1, bytes, sizeof bytes, &len), SAM_LINK_NOT_OPEN);
    WANT(sam_server_next_effect(&server, &effect), SAM_OK); /* the write is asked for again */
    WANT(effect.kind == SAM_EFFECT_WRITE && effect.tag == 1, 1);
    WANT(sam_server_text(&server, 1, 0, bytes, sizeof bytes, &len, &runes), SAM_OK);
    WANT(len == 3 && memcmp(bytes, "ba\n", 3) == 0, 1);
    WANT(made_of(&recovery, bodies, lens, 4), SAM_OK);
    WANT(sam_recovery_finish(&recovery, &server), SAM_MADE);
    WANT(sam_server_free(&server), SAM_OK);
    WANT(sam_recovery_finish(&recovery, &server), SAM_OK);
    WANT(sam_server_next_effect(&server, &effect), SAM_NONE);
    WANT(sam_server_text(&server, 1, 0, bytes, sizeof bytes, &len, &runes), SAM_OK);
    WANT(len == 4 && memcmp(bytes, "cba\n", 4) == 0, 1);
    WANT(sam_server_free(&server), SAM_OK);
    WANT(made_of(&recovery, bodies, lens, 5), SAM_SERVER_NOT_TAKEN); /* no effect waits any more */
    no_recovery(&recovery);
    WANT(made_of(&recovery, bodies + 2, lens + 2, 1), SAM_SERVER_NOT_TAKEN);
    no_recovery(&recovery);
    for (size_t short_by = 1; short_by < 9; short_by++) {
        size_t front = 9 - short_by;
        WANT(made_of(&recovery, bodies + 3, &front, 1), SAM_SERVER_NO_RECORD);
        no_recovery(&recovery);
    }
    WANT(made_of(&recovery, bodies, lens, 1), SAM_OK);
    WANT(sam_recovery_take(&recovery, NULL, 0), SAM_SERVER_NO_RECORD);
    WANT(made_of(&recovery, bodies, lens, 1), SAM_OK);
    WANT(sam_recovery_free(&recovery), SAM_OK);
    no_recovery(&recovery);
}

/* After a crash the text of a file that was closed is there again, until the record of the effect's end is durable. */
static void recovers_closed(void)
{
    static const char *const bodies[] = {"\1" EIGHT("\1") "na\n", "\2" HELLO("\1", "\1", "\0"),
                                         "\3" EIGHT("\1") DATA "\0\x19" OPENED TYPED("b") CLOSED, "\7" EIGHT("\0")};
    static const size_t lens[] = {12, 43, 9 + 3 + 25, 9};
    sam_recovery recovery = SAM_RECOVERY_INIT;
    sam_effect effect = {0, 0, 9};
    uint8_t bytes[8];
    size_t len = 0;
    WANT(made_of(&recovery, bodies, lens, 3), SAM_OK);
    WANT(sam_recovery_finish(&recovery, &server), SAM_OK);
    WANT(sam_server_next_effect(&server, &effect), SAM_OK);
    WANT(effect.len == 3 && effect.kind == SAM_EFFECT_CLOSE && effect.tag == 1, 1);
    WANT(sam_server_closed_name(&server, bytes, sizeof bytes, &len), SAM_OK);
    WANT(len == 1 && bytes[0] == 'n', 1);
    WANT(sam_server_closed_text(&server, bytes, sizeof bytes, &len), SAM_OK);
    WANT(len == 3 && memcmp(bytes, "ba\n", 3) == 0, 1);
    WANT(sam_server_free(&server), SAM_OK);
    WANT(made_of(&recovery, bodies, lens, 4), SAM_OK);
    WANT(sam_recovery_finish(&recovery, &server), SAM_OK);
    WANT(sam_server_next_effect(&server, &effect), SAM_NONE);
    WANT(sam_server_closed_text(&server, bytes, sizeof bytes, &len), SAM_NONE);
    WANT(sam_server_free(&server), SAM_OK);
}

int main(void)
{
    sam_recovery none = {0};
    no_server(NULL);
    no_recovery(NULL);
    WANT(sam_server_new(NULL, id), SAM_NO_HANDLE);
    WANT(sam_recovery_new(NULL, id), SAM_NO_HANDLE);
    no_server(&server);
    no_recovery(&none);
    WANT(sam_server_new(&server, id), SAM_OK);
    WANT(sam_server_new(&server, id), SAM_MADE);
    refused_first();
    begins();
    counts();
    writes();
    hears();
    readers();
    hands_on();
    snarfs();
    stops();
    no_server(&server);
    closes();
    closes_clean();
    recovers();
    recovers_closed();
    WANT((unsigned long)blocks, 0);
    puts("right");
    return 0;
}
