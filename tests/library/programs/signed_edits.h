/*
 * signed_edits.h: what a user does at random to the file EDITED, while command lines that he sends change it, too. He types signs, and no
 * line takes one out: so at the end it is known how many have to be there.
 */
#ifndef SIGNED_EDITS_H
#define SIGNED_EDITS_H

#include "edited_text.h"

enum { LOADED = 400, SIGN = 0x20AC };

static uint64_t state;
static struct text alone; /* what the edits make on one machine */
static long signs;        /* how many the user has typed and not taken out again */

/* A number below `below`, by xorshift. */
static inline uint32_t pick(uint32_t below)
{
    state ^= state << 13;
    state ^= state >> 7;
    state ^= state << 17;
    return (uint32_t)(state >> 33) % below;
}

/* `gone` runes from the place `start` on give way to these. */
struct edit {
    uint32_t start, gone, len;
    const uint32_t *runes;
    const char *utf8;
};

/* An edit of a text, whose signs are counted. */
static inline struct edit pick_edit(const struct text *text)
{
    static const struct {
        const char *utf8;
        uint32_t runes[4], len;
    } typed[] = {{"", {0}, 0},
                 {"\xE2\x82\xAC", {SIGN}, 1},
                 {"e\xE2\x82\xAC", {'e', SIGN}, 2},
                 {"\xE2\x82\xAC\n\xE2\x82\xAC", {SIGN, '\n', SIGN}, 3}};
    uint32_t which = pick(4), start = pick(text->len + 1), gone = pick(4);
    if (gone > text->len - start)
        gone = text->len - start;
    for (uint32_t i = 0; i < gone; i++)
        signs -= text->runes[start + i] == SIGN;
    for (uint32_t i = 0; i < typed[which].len; i++)
        signs += typed[which].runes[i] == SIGN;
    return (struct edit){start, gone, typed[which].len, typed[which].runes, typed[which].utf8};
}

static inline void take_edit(struct text *text, const struct edit *edit)
{
    change(text, edit->start, edit->gone, edit->runes, edit->len);
}

static inline long count_signs(const struct text *text)
{
    long count = 0;
    for (uint32_t i = 0; i < text->len; i++)
        count += text->runes[i] == SIGN;
    return count;
}

/* The text of the file COMMANDS: lines that leave each sign. */
static const char commands[] = ",x/e/c/EE/\n,x/EE/c/e/\n#5a/++/\n,x/++/d\n$a/z/\n";

struct range {
    uint32_t start, end;
};

/* One of its lines. */
static inline struct range pick_line(void)
{
    static const struct range lines[] = {{0, 10}, {11, 21}, {22, 29}, {30, 37}, {38, 43}};
    return lines[pick(5)];
}

static inline void begin_picks(unsigned long seed)
{
    state = seed * 2654435769U + 88172645463325252U;
}

/* Begins with the text that EDITED has, which is in ASCII. */
static inline void begin_text(uint8_t text[LOADED])
{
    for (uint32_t i = 0; i < LOADED; i++)
        alone.runes[i] = text[i] = i % 40 == 39 ? '\n' : (uint8_t)('a' + i % 7);
    alone.len = LOADED;
}

#endif
