/*
 * random SEED EVENTS: a host and a terminal in one process (pair.h). The user does EVENTS random things, and now and then a file joins the
 * host; then all is sent until nothing is left, and every loaded rune of the terminal has to be the host's rune there. On the way a copy
 * of each text is kept by sam_term_changed alone, and has to be the terminal's. It prints what it counted.
 */
#include "pair.h"

static unsigned long refused;

static const char *const texts[] = {"a",           "\n",  "h\xC3\xA9llo", "x\xE2\x86\x92y\n", "\xF0\x9F\x90\xA6", "s/a/bb/\n",
                                    ",x/l/c/L/\n", "0\n", ",p\n",         "f name\n"};

static void user(void)
{
    uint32_t kind = pick(KINDS), a = pick(40), b = pick(40);
    uint16_t tag = (uint16_t)pick(FILES + 4);
    act(kind, tag, a, b, texts[pick(sizeof texts / sizeof texts[0])]);
    for (;;) {
        uint64_t event;
        sam_status why;
        if (sam_term_next_refusal(&term, &event, &why) == SAM_NONE)
            break;
        if (why <= SAM_REFUSAL || why > SAM_REFUSAL_BAD_VERSION)
            fail("a refusal", why);
        refused++;
    }
}

int main(int argc, char **argv)
{
    if (argc != 3)
        return 2;
    state = strtoull(argv[1], NULL, 10) * 2654435769U + 88172645463325252U;
    unsigned long events = strtoul(argv[2], NULL, 10);
    bool done = true;
    setvbuf(stdout, NULL, _IONBF, 0);
    make();
    act(OFFER_VERSION, 0, 1, 0, ""); /* version 2, which asks for the names */
    act(OPEN_CMD, 0, 0, 0, "");
    for (uint16_t tag = 1; tag <= 2; tag++) {
        act(OPEN, tag, 0, 0, "");
        act(VIEW, tag, 0, 60, "");
    }
    for (unsigned long i = 0; i < events; i++) {
        user();
        if (pick(64) == 0)
            join();
        while (pick(3) != 0 && (pick(2) ? carry_up() : carry_down())) {
        }
        if (i % 4 == 0)
            follow_all();
    }
    drain();
    want("done", sam_host_is_done(&host, &done));
    printf("%lu events, %lu refused, done %d\n", events, refused, done);
    end();
    return 0;
}
