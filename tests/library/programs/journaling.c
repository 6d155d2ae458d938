/*
 * journaling: each call of a journal where it does its work, and each status that it can return. The bytes of the file were worked out
 * apart, with sums that were made bit by bit. No call asks for memory (reading.h). It ends with status 0, or 1 and the line that failed.
 */
#include "reading.h"

#include "wanting.h"

#define RANDOM UINT64_C(0x0123456789abcdef)

/* A head, a record of "one" of which nothing was durable, and an empty one that says that all before it was. */
static const uint8_t file[] = {
    0x89, 0x73, 0x61, 0x6d, 0x6a, 0x72, 0x6e, 0x0a, 0x00, 0x00, 0x00, 0x02, 0x01, 0x23, 0x45, 0x67, 0x89, 0xab, 0xcd, 0xef, 0x4d,
    0x98, 0x8a, 0xaf, 0x00, 0x00, 0x00, 0x00, 0x00, 0x00, 0x00, 0x00, 0x00, 0x00, 0x00, 0x03, 0x00, 0x00, 0x00, 0x00, 0x00, 0x00,
    0x00, 0x00, 0xcc, 0xf4, 0xe3, 0x93, 0x6f, 0x6e, 0x65, 0x88, 0x7d, 0x5d, 0x0a, 0x00, 0x00, 0x00, 0x00, 0x00, 0x00, 0x00, 0x01,
    0x00, 0x00, 0x00, 0x00, 0x00, 0x00, 0x00, 0x00, 0x00, 0x00, 0x00, 0x37, 0x01, 0xa0, 0xfa, 0x85, 0x9e, 0xf3, 0x4a, 0x24,
};

enum { FIRST = SAM_JOURNAL_HEAD_BYTES, SECOND = 55, END = sizeof file };

/* The file, as it is written. */
static void writes(void)
{
    uint8_t head[SAM_JOURNAL_HEAD_BYTES];
    sam_record_frame frame;
    WANT(READ(sam_journal_head(RANDOM, head)), SAM_OK);
    WANT(memcmp(head, file, sizeof head), 0);
    WANT(READ(sam_journal_frame(RANDOM, 0, 0, BYTES("one"), &frame)), SAM_OK);
    WANT(memcmp(frame.front, file + FIRST, SAM_RECORD_FRONT_BYTES), 0);
    WANT(memcmp(file + FIRST + SAM_RECORD_FRONT_BYTES, "one", 3), 0);
    WANT(memcmp(frame.back, file + SECOND - SAM_RECORD_BACK_BYTES, SAM_RECORD_BACK_BYTES), 0);
    WANT(sam_journal_frame(RANDOM, 1, SECOND, NULL, 0, &frame), SAM_OK);
    WANT(memcmp(frame.front, file + SECOND, SAM_RECORD_FRONT_BYTES), 0);
    WANT(memcmp(frame.back, file + END - SAM_RECORD_BACK_BYTES, SAM_RECORD_BACK_BYTES), 0);
    sam_record_frame same = frame;
    WANT(sam_journal_frame(RANDOM, 1, 0, file, (size_t)1 << 32, &frame), SAM_JOURNAL_TOO_LONG); /* before it reads any byte */
    WANT(memcmp(&same, &frame, sizeof frame), 0);
}

static void reads(void)
{
    uint64_t random = 1, count = 2;
    size_t end = 3;
    sam_record found = {4, 5, 6, 7};
    WANT(READ(sam_journal_read(file, END, &random, &count, &end)), SAM_OK);
    WANT(random == RANDOM && count == 2 && end == END, 1);
    WANT(sam_journal_read(file, END - 1, &random, &count, &end), SAM_OK);
    WANT(count == 1 && end == SECOND, 1);
    WANT(sam_journal_next(file, END, END, RANDOM, 2, &found), SAM_NONE);
    WANT(sam_journal_next(file, END, SIZE_MAX, RANDOM, 2, &found), SAM_NONE);
    WANT(sam_journal_next(file, END, FIRST, RANDOM, 1, &found), SAM_JOURNAL_TORN);
    WANT(sam_journal_next(file, END, FIRST, RANDOM + 1, 0, &found), SAM_JOURNAL_TORN);
    WANT(sam_journal_next(file, END, FIRST + 1, RANDOM, 0, &found), SAM_JOURNAL_TORN);
    WANT(sam_journal_next(file, END - 1, SECOND, RANDOM, 1, &found), SAM_JOURNAL_TORN);
    WANT(found.durable == 4 && found.body == 5 && found.len == 6 && found.next == 7, 1);
    WANT(READ(sam_journal_next(file, END, FIRST, RANDOM, 0, &found)), SAM_OK);
    WANT(found.durable == 0 && found.body == FIRST + SAM_RECORD_FRONT_BYTES && found.len == 3 && found.next == SECOND, 1);
    WANT(sam_journal_next(file, END, SECOND, RANDOM, 1, &found), SAM_OK);
    WANT(found.durable == SECOND && found.body == SECOND + SAM_RECORD_FRONT_BYTES && found.len == 0 && found.next == END, 1);
}

/* What the file is read as with a bit turned in the byte of a place; what was handed out of it then, in the second place. */
static sam_status turned(size_t at, int bit, uint64_t *count, size_t *end)
{
    uint8_t bytes[END];
    uint64_t random = 0;
    memcpy(bytes, file, END);
    bytes[at] ^= (uint8_t)(1 << bit);
    *count = *end = 99;
    return sam_journal_read(bytes, END, &random, count, end);
}

/* The first record was durable, as the second says: each bit that turns in it, or in the head, is told. In the second it is a torn end. */
static void each_bit(void)
{
    uint64_t count;
    size_t end;
    for (size_t at = 0; at < END; at++) {
        for (int bit = 0; bit < 8; bit++) {
            sam_status wanted = at < 8        ? SAM_JOURNAL_NOT_A_JOURNAL
                                : at < 12     ? SAM_JOURNAL_OTHER_VERSION
                                : at < FIRST  ? SAM_JOURNAL_DAMAGED_HEAD
                                : at < SECOND ? SAM_JOURNAL_DAMAGED
                                              : SAM_OK;
            WANT(turned(at, bit, &count, &end), wanted);
            WANT(count == (at < FIRST ? 99 : at < SECOND ? 0 : 1) && end == (at < FIRST ? 99 : at < SECOND ? FIRST : SECOND), 1);
        }
    }
}

/* Each front of the file has its whole records, and is no damage. */
static void each_front(void)
{
    uint64_t random = 0, count;
    size_t end;
    for (size_t len = 0; len <= END; len++) {
        count = 99, end = 99;
        WANT(sam_journal_read(file, len, &random, &count, &end), len < FIRST ? SAM_JOURNAL_SHORT : SAM_OK);
        WANT(count == (len < FIRST ? 99 : len < SECOND ? 0 : len < END ? 1 : 2), 1);
        WANT(end == (len < FIRST ? 99 : len < SECOND ? (size_t)FIRST : len < END ? (size_t)SECOND : END), 1);
    }
}

int main(void)
{
    writes();
    reads();
    each_bit();
    each_front();
    return 0;
}
