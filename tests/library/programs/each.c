/*
 * each: the user does each thing for certain, one after the other (pair.h). Each changes what both sides are, and together they have each
 * kind of message and of frame sent. After each a number for what both sides are is printed, and at the end the whole of it.
 */
#include "pair.h"
#include "showing.h"

/* A number for what both sides are: FNV-1a of the text that shows it. */
static uint64_t show(void)
{
    uint64_t hash = UINT64_C(0xcbf29ce484222325);
    shown_len = 0;
    put_term_counts();
    put_term();
    put_host_counts();
    put_host();
    for (size_t i = 0; i < shown_len; i++)
        hash = (hash ^ (uint8_t)shown[i]) * UINT64_C(0x100000001b3);
    return hash;
}

#define HUNDRED "0123456789 123456789 123456789 123456789 123456789 123456789 123456789 123456789 123456789 12345678\n"

/* What the user does, in this order; whether bytes are carried after it until none are left. The text of file 2 is
 * `2: all of the text → here\nand a second line\n`. */
static const struct {
    enum kind kind;
    uint16_t tag;
    uint32_t a, b;
    const char *text;
    bool carries;
} things[] = {
    {OFFER_VERSION, 0, 1, 0, "", true}, /* version 2 */
    {OPEN_CMD, 0, 0, 0, "", true},
    {OPEN, 1, 0, 0, "", true},
    {OPEN, 2, 0, 0, "", true},
    {VIEW, 1, 0, 59, "", true},
    {VIEW, 2, 10, 4, "", true},
    {LOAD, 2, 0, 59, "", true}, /* two stretches */
    {SELECT, 1, 3, 6, "", false},
    {SNARF, 1, 0, 0, "", true},
    {SELECT, 1, 0, 1, "", false},
    {PASTE, 1, 0, 0, "", true}, /* in the place of a rune */
    {CUT, 1, 0, 0, "", true},
    {TYPE, 1, 0, 0, "h\xC3\xA9llo" HUNDRED HUNDRED HUNDRED HUNDRED HUNDRED, false}, /* for its bytes there is no room yet */
    {FLUSH_NOW_EVENT, 0, 0, 0, "", true},
    {EDIT, 1, 0, 5, HUNDRED HUNDRED HUNDRED HUNDRED HUNDRED HUNDRED, true}, /* two messages, and one that cuts */
    {WRITE, 1, 0, 0, "", true},
    {SELECT, 2, 11, 13, "", false},
    {LOOK, 2, 0, 0, "", true},   /* from `the` to `here` */
    {SEARCH, 2, 0, 0, "", true}, /* and back */
    {DCLICK, 2, 15, 0, "", true},
    {SCROLL, 2, 0, 1, "", true},
    {WORK, 2, 0, 0, "", true},
    {SEND, 2, 0, 0, "", true}, /* `text` is no command */
    {TYPE, 0, 0, 0, ",x/e/c/EEE/\n", true},
    {TYPE, 0, 0, 0, "f name\n", true},
    {TYPE, 0, 0, 0, ",p\n", true},
    {SET_SNARF, 0, 0, 0, "x\xE2\x86\x92y\n", true},
    {GET_SNARF, 0, 0, 0, "", true},
    {CHECK, 2, 0, 0, "", true},
    {NEW_FILE, 0, 0, 0, "", true},
    {TYPE, 5, 0, 0, "new", false},
    {FLUSH, 0, 0, 0, "", true},
    {SELECT, 1, 0, 550, "", false},
    {SNARF, 1, 0, 0, "", true},
    {SELECT, 2, 0, 0, "", false},
    {PASTE, 2, 0, 0, "", true}, /* it comes as gaps, of which some are in the view */
    {PASTE, 5, 0, 0, "", false},
    {TYPE, 5, 0, 0, "held", false}, /* the next ones wait, too */
    {EDIT, 5, 0, 3, "NEW", false},
    {CUT, 9, 0, 0, "", true}, /* there is no such file */
    {OPEN, 3, 0, 0, "", true},
    {TYPE, 3, 0, 0, "dropped", false},
    {CLOSE, 3, 0, 0, "", true},
    {TYPE, 5, 0, 0, "last", false}, /* it is sent before the end */
    {EXIT, 0, 0, 0, "", true},
    {TYPE, 5, 0, 0, "late", true},
};

/* Does one thing, and sends what there is if it says so. Takes the number for what both sides are before, and returns that after it. */
static uint64_t do_thing(size_t i, uint64_t before)
{
    act(things[i].kind, things[i].tag, things[i].a, things[i].b, things[i].text);
    uint64_t now = show();
    if (now == before)
        fail("a thing that the user does changes nothing", (uint32_t)i);
    while (things[i].carries && (carry_up() | carry_down()))
        ;
    follow_all();
    uint64_t after = show();
    printf("%lu: %lx, %lx\n", (unsigned long)i, (unsigned long)now, (unsigned long)after);
    return after;
}

/* Whether each kind of docs/reference/PROTOCOL.md from the first to the last was sent. */
static void want_kinds(const struct way *way, unsigned first, unsigned last)
{
    for (unsigned kind = first; kind <= last; kind++)
        if (!way->kinds[kind])
            fail("this kind was not sent", kind);
}

int main(void)
{
    state = 88172645463325252U;
    setvbuf(stdout, NULL, _IONBF, 0);
    make();
    uint64_t now = show();
    for (size_t i = 0; i < sizeof things / sizeof things[0]; i++)
        now = do_thing(i, now);
    want_kinds(&up, 1, 22);
    want_kinds(&down, 65, 88);
    printf("%.*s", (int)shown_len, shown);
    drain();
    end();
    return 0;
}
