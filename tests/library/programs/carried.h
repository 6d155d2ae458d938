/* carried.h: what random sessions over connections carry, and the numbers that they draw. What breaks.c and outages.c share. */
#ifndef CARRIED_H
#define CARRIED_H

#include "must.h"

enum { LOG = 4000000 };

/* What was put at a side, or what came of it: for each byte a 0 and the byte, for each note a 1, its length in two bytes, and its bytes. */
struct log {
    uint8_t bytes[LOG];
    size_t len;
};

static uint64_t seed;

static uint32_t pick(uint32_t below)
{
    seed = seed * 6364136223846793005U + 1442695040888963407U;
    return (uint32_t)(seed >> 33) % below;
}

static void fail(const char *what, unsigned long why)
{
    printf("%s: %lu\n", what, why);
    fflush(stdout);
    _Exit(1);
}

static void log_byte(struct log *log, uint8_t byte)
{
    if (log->len == LOG)
        fail("the log is full", LOG);
    log->bytes[log->len++] = byte;
}

static void log_data(struct log *log, const uint8_t *bytes, size_t len)
{
    for (size_t i = 0; i < len; i++) {
        log_byte(log, 0);
        log_byte(log, bytes[i]);
    }
}

static void log_note(struct log *log, const uint8_t *bytes, size_t len)
{
    log_byte(log, 1);
    log_byte(log, (uint8_t)(len / 256));
    log_byte(log, (uint8_t)(len % 256));
    for (size_t i = 0; i < len; i++)
        log_byte(log, bytes[i]);
}

#endif
