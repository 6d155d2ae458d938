/* log.c: writes lines to standard error, and waits for room there only for a moment.
 *
 * Nobody may read them: then a pipe is full at some time, and a write to it would hold up the saving of texts for ever. So a line has at
 * most as many bytes as a pipe takes at once, and is written only where there is room. O_NONBLOCK would be for each other program that has
 * the same standard error as well.
 */
#define _XOPEN_SOURCE 700
#include <poll.h>
#include <stdarg.h>
#include <stdbool.h>
#include <stdint.h>
#include <stdio.h>
#include <string.h>
#include <unistd.h>

#include "log.h"

enum {
    COUNT_ROOM = 100,  /* bytes of the line that has a number */
    LONGEST_WAIT = 500 /* milliseconds that a line waits for room */
};

static unsigned unheard; /* lines that did not go, since the last that did */

/* The characters of Unicode's categories Cc, Zl and Zp, and those of Cf that show nowhere, but for U+200C and U+200D, the joiners: samterm
 * has the same. */
static const struct {
    uint32_t first, last;
} not_shown[] = {
    {0, 0x1F},          {0x7F, 0x9F},       {0xAD, 0xAD},       {0x61C, 0x61C},     {0x180E, 0x180E}, {0x200B, 0x200B},
    {0x200E, 0x200F},   {0x2028, 0x202E},   {0x2060, 0x2064},   {0x2066, 0x206F},   {0xFEFF, 0xFEFF}, {0xFFF9, 0xFFFB},
    {0x1BCA0, 0x1BCA3}, {0x1D173, 0x1D17A}, {0xE0001, 0xE0001}, {0xE0020, 0xE007F},
};

static bool is_shown(uint32_t rune)
{
    for (size_t at = 0; at < sizeof not_shown / sizeof not_shown[0]; at++) {
        if (rune >= not_shown[at].first && rune <= not_shown[at].last)
            return false;
    }
    return true;
}

/* The bytes of the rune that begins there, and the rune; 0 where no whole one does. */
static size_t rune_at(const char *at, uint32_t *rune)
{
    static const uint32_t least[] = {0, 0, 0x80, 0x800, 0x10000};
    unsigned char first = (unsigned char)at[0];
    size_t len = first < 0x80 ? 1 : first < 0xC0 ? 0 : first < 0xE0 ? 2 : first < 0xF0 ? 3 : first < 0xF8 ? 4 : 0;

    *rune = len == 1 ? first : first & (0x7Fu >> len);
    for (size_t next = 1; next < len; next++) {
        if (((unsigned char)at[next] & 0xC0) != 0x80)
            return 0;
        *rune = *rune << 6 | ((unsigned char)at[next] & 0x3F);
    }
    bool is_rune = len > 0 && *rune >= least[len] && *rune <= 0x10FFFF && (*rune < 0xD800 || *rune > 0xDFFF);
    return is_rune ? len : 0;
}

void make_printable(char *words)
{
    char *end = words;
    uint32_t rune;

    while (*words != '\0') {
        size_t len = rune_at(words, &rune);
        if (len > 0 && is_shown(rune)) {
            memmove(end, words, len);
            end += len;
        } else {
            *end++ = '?';
        }
        words += len > 0 ? len : 1;
    }
    *end = '\0';
}

void spell_line(char line[LINE_ROOM], const char *format, va_list list)
{
    vsnprintf(line, LINE_ROOM, format, list);
    make_printable(line);
}

/* Writes a line, if there is room for it within so many milliseconds. Returns whether it went. */
static bool write_line(const char *words, int longest)
{
    struct pollfd end = {.fd = STDERR_FILENO, .events = POLLOUT};
    char line[LINE_ROOM];

    snprintf(line, sizeof line, "samhost: %s", words);
    make_printable(line);
    size_t len = strlen(line);
    line[len++] = '\n';
    return poll(&end, 1, longest) == 1 && write(STDERR_FILENO, line, len) == (ssize_t)len;
}

void say_aloud(const char *words)
{
    char count[COUNT_ROOM];

    if (*words == '\0')
        return;
    snprintf(count, sizeof count, "lines missing before this one, since nobody read them: %u", unheard);
    if (unheard > 0 && write_line(count, 0))
        unheard = 0;
    if (unheard > 0 || !write_line(words, LONGEST_WAIT)) /* once one has waited in vain, no other does */
        unheard++;
}
