/*
 * A session that goes on by single steps, and in which memory may be refused at any request: tests/library/c_library refuses each in turn.
 * A call that was refused has changed nothing, and is made again. It prints what the steps did, which is the same whatever was refused, and
 * ends with status 0, or 1 and the line that failed.
 */
#include "wanting.h"

static sam_host host;
static sam_term term;

/* Makes a call again for as long as memory is refused and what it brought is not taken. */
#define TRY(call)                                                                                                                          \
    do {                                                                                                                                   \
        sam_status status_;                                                                                                                \
        do                                                                                                                                 \
            status_ = (call);                                                                                                              \
        while (status_ == SAM_NO_MEMORY);                                                                                                  \
        WANT(status_, SAM_OK);                                                                                                             \
    } while (0)

/* An event of the user: where it is taken, and has to wait for memory, it acts at a step. */
#define PUT(call)                                                                                                                          \
    do {                                                                                                                                   \
        sam_status status_;                                                                                                                \
        do                                                                                                                                 \
            status_ = (call);                                                                                                              \
        while (status_ == SAM_NO_MEMORY);                                                                                                  \
        WANT(status_ == SAM_OK || status_ == SAM_UNFINISHED, true);                                                                        \
    } while (0)

/* What a step that is refused may not change. */
struct seen {
    uint64_t taken, decided, sent;
    size_t up, down;
};

static struct seen look(void)
{
    struct seen seen;
    WANT(sam_host_taken(&host, &seen.taken), SAM_OK);
    WANT(sam_term_decided(&term, &seen.decided), SAM_OK);
    WANT(sam_term_sent(&term, &seen.sent), SAM_OK);
    WANT(sam_term_pending(&term, &seen.up), SAM_OK);
    WANT(sam_host_pending(&host, &seen.down), SAM_OK);
    return seen;
}

static void want_same(struct seen a, struct seen b)
{
    WANT(a.taken == b.taken && a.decided == b.decided && a.sent == b.sent && a.up == b.up && a.down == b.down, true);
}

/* One step, made again until it is done. */
static sam_did step(bool at_host)
{
    for (;;) {
        sam_did did = {.step = SAM_STEP_WIDTH};
        struct seen before = look();
        sam_status status = at_host ? sam_host_step(&host, &did) : sam_term_step(&term, &did);
        if (status == SAM_OK)
            return did;
        WANT(status, SAM_UNFINISHED);
        WANT(did.step, SAM_STEP_WIDTH);
        want_same(before, look());
    }
}

/* The host's steps. Where memory is refused it answers edits one by one, so these are only counted. */
static void step_host(void)
{
    size_t edits = 0;
    sam_did did;

    while ((did = step(true)).step != SAM_STEP_IDLE) {
        bool is_edit = did.step == SAM_STEP_EDITED || (did.step == SAM_STEP_ANSWERED && (did.kind == 8 || did.kind == 9) && did.tag != 0);
        if (is_edit)
            edits += did.count;
        else if (did.step == SAM_STEP_ANSWERED) {
            printf("after %lu edits the host answered %d of %d\n", (unsigned long)edits, did.kind, did.tag);
            edits = 0;
        } else
            WANT(did.step, SAM_STEP_WROTE);
    }
    WANT(edits, 0); /* another message came after all of them */
}

static void step_term(void)
{
    sam_did did;

    while ((did = step(false)).step > SAM_STEP_LOCKED) {
        if (did.step == SAM_STEP_RECEIVED)
            printf("received %d of %d", did.kind, did.tag);
        else if (did.step == SAM_STEP_ACTED && did.event > 1)
            printf("%lu acted on %d", (unsigned long)did.event, did.tag);
        else if (did.step == SAM_STEP_REFUSED)
            printf("%lu refused: %d", (unsigned long)did.event, (int)did.why);
        else
            continue;
        printf(", from %lu on %lu became %lu\n", (unsigned long)did.start, (unsigned long)did.gone, (unsigned long)did.came);
    }
}

/* Carries all bytes there are, both ways. */
static void carry_steps(void)
{
    static uint8_t bytes[1 << 16];
    size_t up = 1, down = 1;

    while (up > 0 || down > 0) {
        step_term();
        WANT(sam_term_take_out(&term, bytes, sizeof bytes, &up), SAM_OK);
        TRY(sam_host_bring(&host, bytes, up));
        step_host();
        WANT(sam_host_take_out(&host, bytes, sizeof bytes, &down), SAM_OK);
        TRY(sam_term_bring(&term, bytes, down));
    }
    step_term();
}

int main(void)
{
    uint16_t one = 0, two = 0;
    bool is_done = false;

    TRY(sam_host_new(&host));
    TRY(sam_host_add_file(&host, BYTES("one"), BYTES("hello\n"), &one));
    TRY(sam_host_add_file(&host, BYTES("two"), BYTES("2\n"), &two));
    TRY(sam_term_new(&term));
    PUT(sam_term_offer_version(&term, 2)); /* all that follows waits for its answer, and acts at a step */
    PUT(sam_term_open(&term, one));
    PUT(sam_term_load(&term, one, 0, 6));
    PUT(sam_term_edit(&term, one, 0, 1, BYTES("Oh, h")));
    PUT(sam_term_edit(&term, one, 9, 9, BYTES(" you")));
    PUT(sam_term_open(&term, two));
    PUT(sam_term_cut(&term, 7)); /* there is no such file */
    PUT(sam_term_write(&term, one));
    PUT(sam_term_close(&term, two));
    PUT(sam_term_exit(&term));
    carry_steps();
    same_text(&host, one, "Oh, hello you\n");
    WANT(sam_host_is_done(&host, &is_done), SAM_OK);
    printf("%s\n", is_done ? "the session is over" : "the session goes on");
    WANT(sam_host_free(&host), SAM_OK);
    WANT(sam_term_free(&term), SAM_OK);
    return 0;
}
