/* forward: edits that go forward through a file of which little is loaded, a few at each place. The terminal then keeps what it has in many
 * rows, in which a question for the first gap is answered on a small stack. */
#include "must.h"

#include <pthread.h>
#include <stdio.h>
#include <string.h>

enum { LEN = 500000, LOADED = 8191, PLACES = 5000, STEP = 4, FIRST = 515, STACK = 1 << 17 };

static sam_host host;
static sam_term term;
static uint16_t tag;

/* Carries all that is pending, both ways. */
static void carry(void)
{
    static uint8_t bytes[1 << 16];
    size_t up, down;
    do {
        MUST(sam_term_take_out(&term, bytes, sizeof bytes, &up));
        MUST(sam_host_feed(&host, bytes, up));
        MUST(sam_host_take_out(&host, bytes, sizeof bytes, &down));
        MUST(sam_term_feed(&term, bytes, down));
    } while (up > 0 || down > 0);
}

static void begin(void)
{
    static uint8_t text[LEN];
    memset(text, 'x', sizeof text);
    MUST(sam_host_new(&host));
    MUST(sam_term_new(&term));
    MUST(sam_host_add_file(&host, (const uint8_t *)"file", 4, text, sizeof text, &tag));
    MUST(sam_term_offer_version(&term, 2));
    carry();
    MUST(sam_term_open(&term, tag));
    carry();
}

/* Loads the rune at this place. */
static void load(uint32_t place)
{
    MUST(sam_term_view(&term, tag, place, 1));
    carry();
}

/* Puts a rune in at this place, so many times. */
static void type(uint32_t place, int times)
{
    for (int i = 0; i < times; i++)
        MUST(sam_term_edit(&term, tag, place, place, (const uint8_t *)"y", 1));
    carry();
}

static void *ask(void *gap)
{
    MUST(sam_term_first_gap(&term, tag, 0, gap));
    return NULL;
}

int main(void)
{
    begin();
    for (uint32_t i = 0; i < LOADED; i++)
        load(LEN - 2 - 2 * i);
    load(1);
    load(0);
    type(1, 2);
    type(STEP, FIRST);
    uint32_t typed = 2 + FIRST;
    for (uint32_t place = 2; place < PLACES; place++) {
        int times = place % 2 == 0 ? 3 : 5;
        type(STEP * place, times);
        typed += times;
    }
    /* All that was typed stands between the first two runes, which are loaded, or at once after them. */
    uint32_t gap = 0;
    pthread_attr_t small;
    pthread_t thread;
    if (pthread_attr_init(&small) != 0 || pthread_attr_setstacksize(&small, STACK) != 0 ||
        pthread_create(&thread, &small, ask, &gap) != 0 || pthread_join(thread, NULL) != 0) {
        printf("there is no thread\n");
        return 1;
    }
    sam_host_free(&host);
    sam_term_free(&term);
    if (gap != typed + 2) {
        printf("the first gap is at %lu, not at %lu\n", (unsigned long)gap, (unsigned long)typed + 2);
        return 1;
    }
    return 0;
}
