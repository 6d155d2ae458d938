/* log.h: writes lines to standard error, and waits for room there only for a moment. */
#ifndef SAMHOST_LOG_H
#define SAMHOST_LOG_H

#include <stdarg.h>

/* Puts question marks in words for what a screen would not show as it stands: control characters, format characters that show nowhere (but
 * for the two joiners, which scripts and emoji need), line and paragraph separators, and bytes that are no UTF-8. */
void make_printable(char *words);

enum { LINE_ROOM = 4096 }; /* bytes of the longest line, and the zero after it: as many as a pipe takes at once (PIPE_BUF) */

/* Puts words together that are printable, and cut where there is less room. */
void spell_line(char line[LINE_ROOM], const char *format, va_list list);

/* Writes a line of printable words to standard error, unless nobody reads there. An empty one is none. */
void say_aloud(const char *words);

#endif
