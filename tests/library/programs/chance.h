/* chance.h: numbers that look random, and are the same for the same seed. What sessions.c and wrong_sides.c draw. */
#ifndef CHANCE_H
#define CHANCE_H

#include <stdbool.h>
#include <stddef.h>
#include <stdint.h>

static uint64_t chance;

/* Begins anew. Seeds that are near one another lead far apart. */
static inline void begin_chance(uint64_t seed)
{
    chance = (seed + 1) * 0x9E3779B97F4A7C15U;
    for (int i = 0; i < 8; i++)
        chance ^= chance << 13, chance ^= chance >> 7, chance ^= chance << 17;
}

/* A number below `below`, by xorshift. */
static inline uint32_t pick(uint32_t below)
{
    chance ^= chance << 13, chance ^= chance >> 7, chance ^= chance << 17;
    return (uint32_t)((chance >> 32) % below);
}

static inline bool one_in(uint32_t times)
{
    return pick(times) == 0;
}

/* One of these numbers. */
#define PICK_OF(numbers) (numbers)[pick(sizeof(numbers) / sizeof(numbers)[0])]

static inline void pick_bytes(uint8_t *into, size_t count)
{
    for (size_t i = 0; i < count; i++)
        into[i] = (uint8_t)pick(256);
}

#endif
