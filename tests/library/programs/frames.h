/* frames.h: messages and frames as docs/reference/PROTOCOL.md writes them down, made without the library. */
#ifndef FRAMES_H
#define FRAMES_H

#include "sides.h"

#include <stdarg.h>

/* The kinds that are made here. */
enum {
    TVERSION = 1,
    TSTARTCMDFILE,
    TCHECK,
    TREQUEST,
    TSTARTFILE = 6,
    TWORKFILE,
    TTYPE,
    TCUT,
    TPASTE,
    TSTARTNEWFILE = 12,
    TSEND = 17,
    TSETSNARF = 20,
    HVERSION = 65,
    HBINDNAME,
    HCURRENT,
    HNEWNAME,
    HMOVNAME,
    HGROW,
    HCHECK,
    HUNLOCK,
    HDATA,
    HUNLOCKFILE = 75,
    HSETDOT,
    HGROWDATA,
    HDIRTY = 80,
    HCUT,
    HSETPAT,
    HSNARFLEN = 86,
    HACK
};

/* Bytes of one of the two streams, and how many frames they are. */
struct piece {
    uint8_t bytes[4096];
    size_t len;
    unsigned frames;
};

static void add_number(struct piece *piece, uint64_t number, size_t width)
{
    if (piece->len + width > sizeof piece->bytes)
        fail("a piece has no room", (uint32_t)piece->len);
    for (size_t i = 1; i <= width; i++)
        piece->bytes[piece->len++] = (uint8_t)(number >> 8 * (width - i));
}

/* Adds the fields: 2 and 4 are numbers of so many bytes, s is a text. */
static void add_fields(struct piece *piece, const char *fields, va_list words)
{
    for (; *fields; fields++) {
        if (*fields != 's') {
            add_number(piece, va_arg(words, unsigned), *fields == '2' ? 2 : 4);
            continue;
        }
        for (const char *text = va_arg(words, const char *); *text; text++)
            add_number(piece, (uint8_t)*text, 1);
    }
}

/* Begins a frame, and returns where its body begins. */
static size_t begin_frame(struct piece *piece, unsigned kind)
{
    add_number(piece, kind, 1);
    add_number(piece, 0, 2);
    piece->frames++;
    return piece->len;
}

static void end_frame(struct piece *piece, size_t body)
{
    piece->bytes[body - 2] = (uint8_t)((piece->len - body) >> 8);
    piece->bytes[body - 1] = (uint8_t)(piece->len - body);
}

/* Adds a message of the terminal. */
static void add_message(struct piece *piece, unsigned kind, const char *fields, ...)
{
    va_list words;
    size_t body = begin_frame(piece, kind);
    va_start(words, fields);
    add_fields(piece, fields, words);
    va_end(words);
    end_frame(piece, body);
}

/* Adds a frame of the host. */
static void add_frame(struct piece *piece, unsigned kind, uint64_t stamp, const char *fields, ...)
{
    va_list words;
    size_t body = begin_frame(piece, kind);
    add_number(piece, stamp, 8);
    va_start(words, fields);
    add_fields(piece, fields, words);
    va_end(words);
    end_frame(piece, body);
}

#endif
