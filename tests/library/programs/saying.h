/*
 * saying.h: frames and messages of any kind, of which many fit what the other side has, made without the library. What wrong_host.c and
 * wrong_terminal.c say.
 */
#ifndef SAYING_H
#define SAYING_H

#include "chance.h"
#include "met.h"
#include "short_memory.h"

enum { FRAME_ROOM = 4096, FRAME_HEAD = 3, STAMP_BYTES = 8, MOST_PLACE = 300, SAID_FILES = 4, FIRST_HOST_KIND = 65 };

/* A kind of frame, as docs/reference/PROTOCOL.md has it. Its fields: t, a tag; v, a number of two bytes; p, a place; c, a count; s, a text;
 * n, a short one. After a rare one little more is said. */
static const struct frame_kind {
    uint8_t number;
    const char *fields;
    bool is_rare;
} terminal_kinds[] = {{1, "v", false},   {2, "", false},    {3, "t", false},    {4, "tpv", false},  {5, "tpc", false},  {6, "t", true},
                      {7, "tpp", false}, {8, "tps", false}, {9, "tpp", false},  {10, "tp", false},  {11, "tpp", false}, {12, "", true},
                      {13, "t", false},  {14, "t", true},   {15, "tpp", false}, {16, "tpp", false}, {17, "tpp", false}, {18, "tp", false},
                      {19, "", false},   {20, "s", false},  {21, "", false},    {22, "", true}},
  host_kinds[] = {{65, "v", false},   {66, "t", true},   {67, "t", false},   {68, "t", true},   {69, "tn", false},  {70, "tpc", false},
                  {71, "t", false},   {72, "", true},    {73, "tps", false}, {74, "tp", false}, {75, "t", true},    {76, "tpp", false},
                  {77, "tps", false}, {78, "tp", false}, {79, "t", false},   {80, "t", false},  {81, "tpc", false}, {82, "n", false},
                  {83, "t", true},    {84, "t", true},   {85, "s", false},   {86, "c", false},  {87, "", false},    {88, "", true}};

/* The bytes of frames. */
struct said {
    uint8_t bytes[FRAME_ROOM];
    size_t len;
};

static inline void say_number(struct said *said, uint64_t number, size_t width)
{
    WANT(said->len + width <= sizeof said->bytes, 1);
    for (size_t i = 1; i <= width; i++)
        said->bytes[said->len++] = (uint8_t)(number >> 8 * (width - i));
}

/* A text of at most 512 runes, or 60, or, seldom, bytes that are none. */
static inline void say_text(struct said *said, bool is_short)
{
    static const uint32_t runes[] = {'\n', 'a', 0xE9, 0x65E5, 0x1F600}, counts[] = {0, 1, 5, 60, 512};
    for (uint32_t left = is_short ? pick(61) : PICK_OF(counts); left > 0; left--)
        said->len += spell(&PICK_OF(runes), 1, said->bytes + said->len);
    if (one_in(200))
        say_number(said, 0xFF, 1);
}

static inline uint64_t pick_number(uint32_t most, uint64_t most_of_all)
{
    return one_in(200) ? (one_in(2) ? SAM_MOST_RUNES : pick(UINT32_MAX) & most_of_all) : pick(most + 1);
}

/* Says a field. Of two places the second is mostly not below the first: `before` is that. Returns the field. */
static inline uint64_t say_field(struct said *said, char field, uint16_t tag, uint32_t length, uint64_t before)
{
    uint32_t most = length / 2 < MOST_PLACE ? length / 2 : MOST_PLACE;
    uint64_t number = pick_number(most, UINT32_MAX);
    if (field == 's' || field == 'n')
        say_text(said, field == 'n');
    else if (field == 't')
        say_number(said, one_in(100) ? pick(6) : tag, 2);
    else if (field == 'v')
        say_number(said, one_in(100) ? 0 : 1 + pick(3), 2);
    else
        say_number(said, number = number < before && !one_in(100) ? before : number, 4);
    return field == 'p' ? number : 0;
}

static inline const struct frame_kind *pick_kind(bool is_host)
{
    for (;;) {
        const struct frame_kind *kind = is_host ? &PICK_OF(host_kinds) : &PICK_OF(terminal_kinds);
        if (!kind->is_rare || one_in(10))
            return kind;
    }
}

/* Says a frame that names this file mostly, whose places fit a text of this length. */
static inline void say_frame(struct said *said, bool is_host, uint16_t tag, uint32_t length)
{
    const struct frame_kind *kind = pick_kind(is_host);
    size_t begin = said->len;
    uint64_t before = 0;
    say_number(said, one_in(500) ? pick(256) : kind->number, 1);
    say_number(said, 0, 2);
    if (is_host)
        say_number(said, one_in(1000) ? (uint64_t)1 << 40 : 0, STAMP_BYTES);
    for (const char *field = kind->fields; *field; field++)
        before = say_field(said, *field, tag, length, field[0] == 'p' && field > kind->fields && field[-1] == 'p' ? before : 0);
    size_t body = said->len - begin - FRAME_HEAD, told = one_in(500) ? pick(65536) : body;
    said->bytes[begin + 1] = (uint8_t)(told >> 8);
    said->bytes[begin + 2] = (uint8_t)told;
}

/* Says a frame of this kind about a file, with these numbers behind the tag, of four bytes each. */
static inline void say_of_file(struct said *said, uint8_t kind, uint16_t tag, const uint32_t *numbers, size_t count)
{
    bool is_host = kind >= FIRST_HOST_KIND;
    say_number(said, kind, 1);
    say_number(said, (is_host ? STAMP_BYTES : 0) + 2 + 4 * count, 2);
    say_number(said, 0, is_host ? STAMP_BYTES : 0);
    say_number(said, tag, 2);
    for (size_t i = 0; i < count; i++)
        say_number(said, numbers[i], 4);
}

#endif
