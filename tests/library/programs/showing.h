/*
 * showing.h: what the readers say of host and terminal (sides.h), as a text. put_term_counts and put_host_counts put what may wait: events
 * and pending bytes; put_term and put_host all else. Of a text they put at most the first MOST runes, and how many it has.
 */
#ifndef SHOWING_H
#define SHOWING_H

#include "sides.h"

#include <stdarg.h>

static char shown[8 * MOST];
static size_t shown_len;

static void put(const char *format, ...)
{
    va_list words;
    va_start(words, format);
    int len = vsnprintf(shown + shown_len, sizeof shown - shown_len, format, words);
    va_end(words);
    if (len < 0 || (size_t)len >= sizeof shown - shown_len)
        fail("there is no room to show both sides", (uint32_t)shown_len);
    shown_len += (size_t)len;
}

/* A rune of a rasp, `_` for one that is not loaded. */
static void put_rune(uint32_t rune)
{
    if (rune >= 0x80 && rune != SAM_GAP) {
        put("\\%x", rune);
        return;
    }
    if (shown_len + 1 == sizeof shown)
        fail("there is no room to show both sides", rune);
    shown[shown_len++] = rune == SAM_GAP ? '_' : (char)rune;
    shown[shown_len] = 0;
}

/* What the terminal has of an open file. */
static void put_rasp(uint16_t tag)
{
    static uint32_t runes[MOST];
    uint32_t len = 0, count = 0, start = 0, end = 0, top = 0, bottom = 0;
    bool locked = false;
    want("a length", sam_term_len(&term, tag, &len));
    want("a text", sam_term_read(&term, tag, 0, runes, MOST, &count));
    want("a dot", sam_term_dot(&term, tag, &start, &end));
    want("a view", sam_term_view_of(&term, tag, &top, &bottom));
    want("locks", sam_term_locked(&term, tag, &locked));
    put(" dot %u %u, view %u %u, locked %d, %u runes:", start, end, top, bottom, locked, len);
    for (uint32_t i = 0; i < count; i++)
        put_rune(runes[i]);
}

static void put_term_files(void)
{
    size_t tags = 0, len = 0;
    want("tags", sam_term_tags(&term, &tags));
    for (uint16_t tag = 0; tag < tags; tag++) {
        char name[256];
        bool known = false, open = false, dirty = false, changed = false;
        want("known", sam_term_is_known(&term, tag, &known));
        if (!known)
            continue;
        want("open", sam_term_is_open(&term, tag, &open));
        want("dirty", sam_term_is_dirty(&term, tag, &dirty));
        want("changed", sam_term_is_changed(&term, tag, &changed));
        want("a name", sam_term_name(&term, tag, (uint8_t *)name, sizeof name, &len));
        put("terminal, %u: %.*s, open %d, dirty %d, changed %d", tag, (int)len, name, open, dirty, changed);
        if (open)
            put_rasp(tag);
        put("\n");
    }
}

static void put_term_counts(void)
{
    uint64_t events = 0, decided = 0, held = 0;
    size_t pending = 0;
    want("events", sam_term_events(&term, &events));
    want("decided", sam_term_decided(&term, &decided));
    want("held", sam_term_held(&term, &held));
    want("pending at the terminal", sam_term_pending(&term, &pending));
    put("terminal: %lu of %lu events, %lu held, pending %lu\n", (unsigned long)decided, (unsigned long)events, (unsigned long)held,
        (unsigned long)pending);
}

static void put_term(void)
{
    char bytes[512];
    uint64_t sent = 0, under_way = 0, event = 0;
    uint32_t unsent = 0, runes = 0, snarfed = 0;
    uint16_t version = 0, current = 0;
    size_t pattern = 0, len = 0;
    bool exited = false, locked = false;
    sam_status why;
    want("sent", sam_term_sent(&term, &sent));
    want("under way", sam_term_under_way(&term, &under_way));
    want("unsent", sam_term_unsent(&term, &unsent));
    want("the terminal's version", sam_term_version(&term, &version));
    want("exited", sam_term_exited(&term, &exited));
    want("the command lock", sam_term_command_locked(&term, &locked));
    want("the length of the snarf buffer", sam_term_snarf_len(&term, &snarfed));
    put("terminal: sent %lu, under way %lu, unsent %u", (unsigned long)sent, (unsigned long)under_way, unsent);
    put(", version %u, exited %d, locked %d, snarfed %u", version, exited, locked, snarfed);
    if (sam_term_current(&term, &current) == SAM_OK)
        put(", current %u", current);
    want("the pattern", sam_term_pattern(&term, (uint8_t *)bytes, sizeof bytes, &pattern));
    put(", pattern %.*s", (int)pattern, bytes);
    want("the snarf buffer", sam_term_snarfed(&term, 0, (uint8_t *)bytes, sizeof bytes, &len, &runes));
    put(", snarf %.*s\n", (int)len, bytes);
    while (sam_term_next_refusal(&term, &event, &why) == SAM_OK)
        put("refused: %lu, %u\n", (unsigned long)event, (unsigned)why);
    put_term_files();
}

/* A file of the host: its text, and what was written last. */
static void put_host_file(uint16_t tag)
{
    static uint8_t bytes[MOST];
    uint32_t all = 0, runes = 0, start = 0, end = 0;
    size_t len = 0;
    bool dirty = false;
    want("a name of the host", sam_host_name(&host, tag, bytes, sizeof bytes, &len));
    put("host, %u: %.*s", tag, (int)len, (char *)bytes);
    want("a dot of the host", sam_host_dot(&host, tag, &start, &end));
    want("a mark of the host", sam_host_is_dirty(&host, tag, &dirty));
    want("a length of the host", sam_host_len(&host, tag, &all));
    want("a text of the host", sam_host_text(&host, tag, 0, bytes, sizeof bytes, &len, &runes));
    put(", dot %u %u, dirty %d, %u runes: %.*s", start, end, dirty, all, (int)len, (char *)bytes);
    if (sam_host_saved(&host, tag, 0, bytes, sizeof bytes, &len, &runes) == SAM_OK)
        put(", written %u: %.*s", runes, (int)len, (char *)bytes);
    put("\n");
}

static void put_host_counts(void)
{
    size_t pending = 0;
    want("pending at the host", sam_host_pending(&host, &pending));
    put("host: pending %lu\n", (unsigned long)pending);
}

static void put_host(void)
{
    size_t tags = 0;
    uint64_t taken = 0;
    uint16_t version = 0, written = 0;
    bool done = false, has = false;
    want("done", sam_host_is_done(&host, &done));
    want("taken", sam_host_taken(&host, &taken));
    want("the host's version", sam_host_version(&host, &version));
    want("the host's tags", sam_host_tags(&host, &tags));
    put("host: taken %lu, version %u, done %d, tags %lu\n", (unsigned long)taken, version, done, (unsigned long)tags);
    while (sam_host_next_written(&host, &written) == SAM_OK)
        put("written: %u\n", written);
    for (uint16_t tag = 0; tag < tags; tag++) {
        want("a file of the host", sam_host_has_file(&host, tag, &has));
        if (has)
            put_host_file(tag);
    }
}

#endif
