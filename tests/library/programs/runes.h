/* runes.h: texts as arrays of runes, made without the library. What sessions.c and wrong_sides.c keep of a text. */
#ifndef RUNES_H
#define RUNES_H

#include "wanting.h"

#ifndef MOST_KEPT
#define MOST_KEPT (1 << 14) /* runes of a text that is kept */
#endif
enum { MOST_RUNE_BYTES = 4 };

/* A text of runes, or gaps. */
struct text {
    uint32_t runes[MOST_KEPT], len;
};

/* `gone` runes from the place on give way to these. */
static inline void change(struct text *text, uint32_t place, uint32_t gone, const uint32_t *runes, uint32_t came)
{
    WANT(place <= text->len && gone <= text->len - place && text->len - gone + came <= MOST_KEPT, 1);
    memmove(text->runes + place + came, text->runes + place + gone, (text->len - place - gone) * sizeof *runes);
    if (came > 0)
        memcpy(text->runes + place, runes, came * sizeof *runes);
    text->len = text->len - gone + came;
}

static inline bool is_same_text(const struct text *one, const struct text *other)
{
    return one->len == other->len && memcmp(one->runes, other->runes, one->len * sizeof *one->runes) == 0;
}

/* Writes the runes in UTF-8, and returns how many bytes they have. */
static inline size_t spell(const uint32_t *runes, uint32_t count, uint8_t *into)
{
    uint8_t *at = into;
    for (uint32_t i = 0; i < count; i++) {
        uint32_t rune = runes[i];
        int more = rune < 0x80 ? 0 : rune < 0x800 ? 1 : rune < 0x10000 ? 2 : 3;
        *at++ = more == 0 ? (uint8_t)rune : (uint8_t)(0xFF00U >> (more + 1) | rune >> 6 * more);
        while (more-- > 0)
            *at++ = 0x80 | (rune >> 6 * more & 0x3F);
    }
    return (size_t)(at - into);
}

/* The runes of UTF-8 that is known to be right. */
static inline void read_text(struct text *text, const uint8_t *bytes, size_t len)
{
    text->len = 0;
    for (const uint8_t *at = bytes; at < bytes + len;) {
        uint8_t front = *at++;
        int more = front < 0x80 ? 0 : front < 0xE0 ? 1 : front < 0xF0 ? 2 : 3;
        uint32_t rune = more == 0 ? front : front & (0x3FU >> more);
        while (more-- > 0)
            rune = rune << 6 | (*at++ & 0x3FU);
        WANT(text->len < MOST_KEPT, 1);
        text->runes[text->len++] = rune;
    }
}

/* A number of bytes, which other bytes have not. */
static inline uint64_t sum_of(const uint8_t *bytes, size_t len)
{
    uint64_t sum = 14695981039346656037U + len;
    for (size_t i = 0; i < len; i++)
        sum = (sum ^ bytes[i]) * 1099511628211U;
    return sum;
}

static inline uint64_t sum_of_text(const struct text *text)
{
    static uint8_t bytes[MOST_RUNE_BYTES * MOST_KEPT];
    return sum_of(bytes, spell(text->runes, text->len, bytes));
}

#endif
