/*
 * notes: each kind of message of a session, written as the bytes that docs/reference/SESSION.md says and read from them, and each refusal
 * in its order. No call asks for memory (reading.h). It ends with status 0, or 1 and the line that failed.
 */
#include "reading.h"

#include "wanting.h"

/* What each field is, and its bytes. */
#define REQUEST "\1\2\3\4"
#define TAG "\5\6"
#define CODE "\x15"
#define NUMBER "\7\x8\x9\xA\xB\xC\xD\xE"
#define PATH "\0\3/a\xFF"
#define COPY "\0\2/b"
#define TEXT "\0\4\xC3\xA9t\0"
static const uint8_t path[] = "/a\xFF", copy[] = "/b", text[] = "\xC3\xA9t\0";
enum { HAS_REQUEST = 1, HAS_TAG = 2, HAS_CODE = 4, HAS_NUMBER = 8, HAS_PATH = 16, HAS_COPY = 32, HAS_TEXT = 64 };

static const struct {
    uint8_t kind;
    unsigned has;
    const char *bytes;
    size_t len;
} rows[] = {
#define ROW(kind, has, fields) {kind, has, fields, sizeof(fields) - 1}
    ROW(SAM_NOTE_OPEN, HAS_REQUEST | HAS_PATH, "\1" REQUEST PATH),
    ROW(SAM_NOTE_COMPLETE, HAS_REQUEST | HAS_PATH, "\2" REQUEST PATH),
    ROW(SAM_NOTE_RELOAD, HAS_REQUEST | HAS_TAG, "\3" REQUEST TAG),
    ROW(SAM_NOTE_RELOADED, HAS_TAG | HAS_NUMBER, "\4" TAG NUMBER),
    ROW(SAM_NOTE_WRITE, HAS_REQUEST | HAS_TAG, "\5" REQUEST TAG),
    ROW(SAM_NOTE_SESSION, HAS_NUMBER | HAS_PATH | HAS_TEXT, "A" NUMBER PATH TEXT),
    ROW(SAM_NOTE_SAID, HAS_TEXT, "B" TEXT),
    ROW(SAM_NOTE_SHOWN, HAS_TAG | HAS_NUMBER, "C" TAG NUMBER),
    ROW(SAM_NOTE_TAKEN_OVER, HAS_TEXT, "D" TEXT),
    ROW(SAM_NOTE_ENDED, HAS_CODE | HAS_NUMBER, "E" CODE NUMBER),
    ROW(SAM_NOTE_OPENED, HAS_REQUEST | HAS_TAG, "F" REQUEST TAG),
    ROW(SAM_NOTE_REFUSED, HAS_REQUEST | HAS_CODE | HAS_TEXT, "G" REQUEST CODE TEXT),
    ROW(SAM_NOTE_NAMES, HAS_REQUEST | HAS_CODE | HAS_PATH, "H" REQUEST CODE PATH),
    ROW(SAM_NOTE_ANEW, HAS_REQUEST | HAS_NUMBER, "I" REQUEST NUMBER),
    ROW(SAM_NOTE_SAVED, HAS_REQUEST | HAS_TAG | HAS_CODE | HAS_PATH | HAS_COPY | HAS_TEXT, "J" REQUEST TAG CODE PATH COPY TEXT),
    ROW(SAM_NOTE_NOT_SAVED, HAS_REQUEST | HAS_TAG | HAS_CODE | HAS_PATH | HAS_COPY | HAS_TEXT, "K" REQUEST TAG CODE PATH COPY TEXT),
    ROW(SAM_NOTE_CHANGED, HAS_TAG | HAS_CODE | HAS_PATH | HAS_TEXT, "L" TAG CODE PATH TEXT),
    ROW(SAM_NOTE_DATED, HAS_TAG | HAS_NUMBER | HAS_PATH, "M" TAG NUMBER PATH),
    ROW(SAM_NOTE_EARLIER, HAS_TAG | HAS_CODE | HAS_NUMBER | HAS_PATH | HAS_COPY | HAS_TEXT, "N" TAG CODE NUMBER PATH COPY TEXT),
    ROW(SAM_NOTE_ASIDE, HAS_TAG | HAS_CODE | HAS_PATH | HAS_COPY | HAS_TEXT, "O" TAG CODE PATH COPY TEXT),
    ROW(SAM_NOTE_LOST, HAS_TAG | HAS_CODE | HAS_PATH | HAS_TEXT, "P" TAG CODE PATH TEXT),
    ROW(SAM_NOTE_NO_JOURNAL, HAS_CODE | HAS_TEXT, "Q" CODE TEXT),
};
enum { ROWS = sizeof rows / sizeof rows[0] };

/* A message of a kind with these fields; all others are 0 or empty. */
static sam_note note_of(uint8_t kind, unsigned has)
{
    sam_note note = {0};
    note.kind = kind;
    note.request = has & HAS_REQUEST ? 0x01020304 : 0;
    note.tag = has & HAS_TAG ? 0x0506 : 0;
    note.code = has & HAS_CODE ? SAM_NOTE_CUT : 0;
    note.number = has & HAS_NUMBER ? UINT64_C(0x0708090A0B0C0D0E) : 0;
    note.path_len = has & HAS_PATH ? sizeof path - 1 : 0;
    note.copy_len = has & HAS_COPY ? sizeof copy - 1 : 0;
    note.text_len = has & HAS_TEXT ? sizeof text - 1 : 0;
    return note;
}

static bool is_at(const char *bytes, size_t at, size_t len, const uint8_t *wanted, size_t wanted_len)
{
    return len == wanted_len && (len == 0 || memcmp(bytes + at, wanted, len) == 0);
}

/* Reads the bytes of a row, and compares each field. */
static void reads(size_t i)
{
    sam_note wanted = note_of(rows[i].kind, rows[i].has), is = {0};
    const char *bytes = rows[i].bytes;
    WANT(READ(sam_note_read((const uint8_t *)bytes, rows[i].len, &is)), SAM_OK);
    WANT(is.kind == wanted.kind && is.request == wanted.request && is.tag == wanted.tag, 1);
    WANT(is.code == wanted.code && is.number == wanted.number, 1);
    WANT(is_at(bytes, is.path_at, is.path_len, path, wanted.path_len), 1);
    WANT(is_at(bytes, is.copy_at, is.copy_len, copy, wanted.copy_len), 1);
    WANT(is_at(bytes, is.text_at, is.text_len, text, wanted.text_len), 1);
}

/* Writes the message of a row into just so much room, and finds its bytes; into less it isn't written. */
static void writes(size_t i)
{
    sam_note note = note_of(rows[i].kind, rows[i].has);
    uint8_t into[64] = "unused";
    size_t len = 99;
    WANT(READ(sam_note_write(&note, path, copy, text, into, rows[i].len, &len)), SAM_OK);
    WANT(len, rows[i].len);
    WANT(memcmp(into, rows[i].bytes, len), 0);
    WANT(into[len], 0);
    memcpy(into, "unused", 7);
    WANT(sam_note_write(&note, path, copy, text, into, rows[i].len - 1, &len), SAM_NOTE_BAD_LENGTH);
    WANT(len == rows[i].len && memcmp(into, "unused", 7) == 0, 1);
}

/* A message cut anywhere, or with a byte too many, is none; nor is one with a field that its kind has not. */
static void refuses(size_t i)
{
    sam_note is = note_of(9, 127), was = is;
    uint8_t bytes[64] = "", into[64] = "unused";
    size_t len = 99;
    memcpy(bytes, rows[i].bytes, rows[i].len);
    for (size_t cut = 0; cut <= rows[i].len + 1; cut++)
        if (cut != rows[i].len)
            WANT(sam_note_read(bytes, cut, &is), SAM_NOTE_BAD_LENGTH);
    for (unsigned field = 1; field <= HAS_TEXT; field *= 2) {
        sam_note note = note_of(rows[i].kind, rows[i].has | field);
        if (!(rows[i].has & field))
            WANT(sam_note_write(&note, path, copy, text, into, sizeof into, &len), SAM_NOTE_BAD_FIELD);
    }
    WANT(memcmp(&is, &was, sizeof is) == 0 && len == 99 && memcmp(into, "unused", 7) == 0, 1);
}

/* The numbers of no kind. */
static void unknown_kinds(void)
{
    for (unsigned kind = 0; kind < 256; kind++) {
        bool known = (1 <= kind && kind <= 5) || (65 <= kind && kind <= 81);
        uint8_t byte = (uint8_t)kind, into[64] = "unused";
        sam_note note = note_of(byte, 127);
        size_t len = 99;
        WANT(sam_note_read(&byte, 1, &note), known ? SAM_NOTE_BAD_LENGTH : SAM_NOTE_BAD_KIND);
        if (!known)
            WANT(sam_note_write(&note, path, copy, text, into, 0, &len), SAM_NOTE_BAD_KIND);
        WANT(len == 99 && memcmp(into, "unused", 7) == 0, 1);
    }
}

/* The greatest length, and one more. */
static void lengths(void)
{
    static uint8_t words[SAM_LINK_MOST_NOTE], into[SAM_LINK_MOST_NOTE + 9];
    sam_note note = {0}, is = {0};
    size_t len = 0;
    memset(words, 'w', sizeof words);
    note.kind = SAM_NOTE_SAID;
    note.text_len = SAM_LINK_MOST_NOTE - 3;
    WANT(sam_note_write(&note, NULL, NULL, words, into, sizeof into, &len), SAM_OK);
    WANT(len, SAM_LINK_MOST_NOTE);
    WANT(memcmp(into, "B\x0F\xFD" "www", 6), 0);
    WANT(sam_note_read(into, len, &is), SAM_OK);
    WANT(is.text_at == 3 && is.text_len == note.text_len, 1);
    note.text_len++;
    WANT(sam_note_write(&note, NULL, NULL, words, into, sizeof into, &len), SAM_NOTE_BAD_LENGTH);
    into[2]++;
    into[len] = 'w';
    WANT(sam_note_read(into, len + 1, &is), SAM_NOTE_BAD_LENGTH);
    note.text_len = SIZE_MAX; /* no such text is read */
    WANT(sam_note_write(&note, NULL, NULL, words, into, sizeof into, &len), SAM_NOTE_BAD_LENGTH);
    WANT(len, SAM_LINK_MOST_NOTE);
}

/* What is wrong in a path, a copy or a text, each before those after it. */
static void wrong_pieces(void)
{
    static const uint8_t zero[] = "a\0b", cut[] = "\xC3", surrogate[] = "\xED\xA0\x80", far[] = "\xF4\x90\x80\x80";
    uint8_t into[64] = "unused";
    size_t len = 99;
    sam_note note = {0}, is = {0};
    WANT(sam_note_read(BYTES("O" TAG CODE "\0\1\0" COPY "\0\1\xC3"), &is), SAM_NOTE_BAD_PATH);
    WANT(sam_note_read(BYTES("O" TAG CODE PATH "\0\2a\0" "\0\1\xC3"), &is), SAM_NOTE_BAD_PATH);
    WANT(sam_note_read(BYTES("O" TAG CODE PATH COPY "\0\1\xC3"), &is), SAM_NOTE_BAD_TEXT);
    WANT(sam_note_read(BYTES("O" TAG CODE "\0\1\0" COPY "\0\1\xC3" "more"), &is), SAM_NOTE_BAD_LENGTH);
    WANT(is.kind == 0 && is.path_len == 0, 1);
    note = note_of(SAM_NOTE_ASIDE, HAS_TAG | HAS_CODE | HAS_PATH | HAS_COPY | HAS_TEXT);
    note.path_len = note.copy_len = 3;
    note.text_len = 1;
    WANT(sam_note_write(&note, zero, zero, cut, into, 20, &len), SAM_NOTE_BAD_PATH);
    WANT(sam_note_write(&note, path, zero, cut, into, 20, &len), SAM_NOTE_BAD_PATH);
    WANT(sam_note_write(&note, path, path, cut, into, 20, &len), SAM_NOTE_BAD_TEXT);
    WANT(sam_note_write(&note, zero, zero, cut, into, 16, &len), SAM_NOTE_BAD_LENGTH);
    note.number = 1;
    WANT(sam_note_write(&note, zero, zero, cut, into, 16, &len), SAM_NOTE_BAD_FIELD);
    note.number = 0;
    note.text_len = 3;
    WANT(sam_note_write(&note, path, path, surrogate, into, 20, &len), SAM_NOTE_BAD_TEXT);
    note.text_len = 4;
    WANT(sam_note_write(&note, path, path, far, into, 21, &len), SAM_NOTE_BAD_TEXT);
    WANT(len == 99 && memcmp(into, "unused", 7) == 0, 1);
}

int main(void)
{
    for (size_t i = 0; i < ROWS; i++) {
        reads(i);
        writes(i);
        refuses(i);
    }
    unknown_kinds();
    lengths();
    wrong_pieces();
    WANT((unsigned long)blocks, 0);
    puts("right");
    return 0;
}
