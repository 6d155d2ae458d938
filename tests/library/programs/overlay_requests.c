/*
 * overlay_requests: what is asked of an overlay acts in its order, is shared or is refused; see overlay.c. It ends with status 0, or 1 and
 * the line that failed.
 */
#include "overlay_session.h"

static sam_status asks(sam_overlay *overlay, sam_event_kind kind, uint32_t start, uint32_t end, uint64_t *number)
{
    sam_event event = {.kind = kind, .start = start, .number = end, .tag = 1};
    return sam_overlay_ask(overlay, &event, NULL, 0, number);
}

static sam_turn turn(sam_overlay *overlay)
{
    sam_turn turn = SAM_TURN_WIDTH;
    WANT(sam_overlay_act_next(overlay, &turn), SAM_OK);
    return turn;
}

/* So many requests wait. */
static void wait_requests(sam_overlay *overlay, size_t count)
{
    size_t requests = 9999;
    WANT(READ(sam_overlay_requests(overlay, &requests)), SAM_OK);
    WANT(requests, count);
}

/* A step of this kind that tells of this request, 0 if of none; nothing which is shown changed. */
static void step_tells(sam_overlay *overlay, sam_step step, uint64_t request)
{
    sam_did did;
    sam_splice splice;
    WANT(sam_overlay_step(overlay, &did), SAM_OK);
    WANT(did.step, step);
    WANT(did.request, request);
    WANT(READ(sam_overlay_next_splice(overlay, &splice)), SAM_NONE);
}

/* Requests stand in one order with the edits: each finds what was shown as it was asked for, and its number is told once. */
static void asked_in_order(void)
{
    sam_host host = SAM_HOST_INIT;
    sam_overlay overlay = SAM_OVERLAY_INIT;
    sam_file file;
    uint64_t number = 9;
    open_both(&host, &overlay, "hello", true);
    WANT(turn(&overlay), SAM_TURN_NOTHING);
    WANT(sam_overlay_replace(&overlay, 1, 5, 5, BYTES("!")), SAM_OK);
    WANT(asks(&overlay, SAM_EVENT_SELECT, 4, 6, &number), SAM_OK); /* `o!` */
    WANT(number, 1);
    WANT(asks(&overlay, SAM_EVENT_WRITE, 0, 0, &number), SAM_OK);
    WANT(number, 2);
    WANT(asks(&overlay, SAM_EVENT_DCLICK, 99, 0, &number), SAM_OK);
    WANT(number, 3);
    WANT(sam_overlay_replace(&overlay, 1, 0, 1, BYTES("J")), SAM_OK);
    shows(&overlay, 1, "Jello!");
    wait_requests(&overlay, 3);
    WANT(turn(&overlay), SAM_TURN_NOT_YET); /* the `!` is left to put */
    WANT(put(&overlay), SAM_PUT_EDIT);
    number = 9;
    WANT(asks(&overlay, SAM_EVENT_FLUSH, 0, 0, &number), SAM_WAITING);
    WANT(number, 9);
    WANT(turn(&overlay), SAM_TURN_NOT_YET);
    step_tells(&overlay, SAM_STEP_ACTED, 0); /* the edit */
    go_on(&overlay);
    WANT(put(&overlay), SAM_PUT_NOT_FREE); /* `Jello` stands behind the requests */
    WANT(turn(&overlay), SAM_TURN_REQUEST);
    wait_requests(&overlay, 2);
    step_tells(&overlay, SAM_STEP_ACTED, 1);
    WANT(READ(sam_overlay_file(&overlay, 1, &file)), SAM_OK);
    WANT(file.dot_start == 4 && file.dot_end == 6, 1);
    go_on(&overlay);
    WANT(turn(&overlay), SAM_TURN_REQUEST);
    step_tells(&overlay, SAM_STEP_ACTED, 2);
    go_on(&overlay);
    WANT(turn(&overlay), SAM_TURN_NOT_YET); /* the write's lock is in its way */
    WANT(put(&overlay), SAM_PUT_NOT_FREE);
    up(&overlay, &host);
    same_text(&host, 1, "hello!");
    bring_down(&overlay, &host);
    go_on(&overlay);
    shows(&overlay, 1, "Jello!");
    WANT(turn(&overlay), SAM_TURN_REQUEST);
    step_tells(&overlay, SAM_STEP_REFUSED, 3);
    wait_requests(&overlay, 0);
    WANT(turn(&overlay), SAM_TURN_NOTHING);
    for (int edits = 0; edits < 2; edits++) {
        go_on(&overlay);
        WANT(put(&overlay), SAM_PUT_EDIT);
        step_tells(&overlay, SAM_STEP_ACTED, 0);
    }
    settle(&overlay, &host);
    WANT(put(&overlay), SAM_PUT_NOTHING);
    same_text(&host, 1, "Jello!");
    free_both(&host, &overlay);
}

/* A write that would save the same text as one that waits is that one. What is brought acts beside the requests, and has no number. */
static void asked_for_twice(void)
{
    sam_host host = SAM_HOST_INIT;
    sam_overlay overlay = SAM_OVERLAY_INIT;
    uint64_t number = 0;
    open_both(&host, &overlay, "hello", true);
    WANT(sam_overlay_replace(&overlay, 1, 5, 5, BYTES("!")), SAM_OK);
    WANT(asks(&overlay, SAM_EVENT_WRITE, 0, 0, &number), SAM_OK);
    WANT(number, 1);
    WANT(asks(&overlay, SAM_EVENT_GET_SNARF, 0, 0, &number), SAM_OK);
    WANT(number, 2);
    WANT(asks(&overlay, SAM_EVENT_WRITE, 0, 0, &number), SAM_OK);
    WANT(number, 1);
    wait_requests(&overlay, 2);
    WANT(event_of(&overlay, SAM_EVENT_SELECT, 1, 0, 1), SAM_OK);
    WANT(turn(&overlay), SAM_TURN_NOT_YET); /* an event is held */
    step_tells(&overlay, SAM_STEP_ACTED, 0);
    wait_requests(&overlay, 2);
    go_on(&overlay);
    WANT(sam_overlay_replace(&overlay, 1, 6, 6, BYTES("?")), SAM_OK);
    WANT(asks(&overlay, SAM_EVENT_WRITE, 0, 0, &number), SAM_OK);
    WANT(number, 3);
    WANT(put(&overlay), SAM_PUT_EDIT);
    step_tells(&overlay, SAM_STEP_ACTED, 0);
    go_on(&overlay);
    WANT(turn(&overlay), SAM_TURN_REQUEST);
    WANT(event_of(&overlay, SAM_EVENT_FLUSH, 0, 0, 0), SAM_OK); /* behind the request that is held */
    step_tells(&overlay, SAM_STEP_ACTED, 1);
    go_on(&overlay);
    WANT(turn(&overlay), SAM_TURN_REQUEST);
    step_tells(&overlay, SAM_STEP_ACTED, 2);
    settle(&overlay, &host);
    WANT(turn(&overlay), SAM_TURN_NOT_YET);
    WANT(put(&overlay), SAM_PUT_EDIT);
    step_tells(&overlay, SAM_STEP_ACTED, 0);
    go_on(&overlay);
    WANT(turn(&overlay), SAM_TURN_REQUEST);
    step_tells(&overlay, SAM_STEP_ACTED, 3);
    settle(&overlay, &host);
    same_text(&host, 1, "hello!?");
    free_both(&host, &overlay);
}

/* Behind a request that closes the file no edit of it is taken, and behind one that leaves none at all; 1,000 requests wait. */
static void asked_and_refused(void)
{
    sam_host host = SAM_HOST_INIT;
    sam_overlay overlay = SAM_OVERLAY_INIT;
    sam_event event = {.kind = SAM_EVENT_SET_SNARF};
    uint64_t number = 9;
    open_both(&host, &overlay, "hello", true);
    WANT(sam_overlay_ask(&overlay, &event, BYTES("\xFF"), &number), SAM_NOT_TEXT);
    event.kind = 0;
    WANT(sam_overlay_ask(&overlay, &event, NULL, 0, &number), SAM_NONE);
    event.kind = (sam_event_kind)(SAM_EVENT_PASTE_CMD + 1);
    WANT(sam_overlay_ask(&overlay, &event, NULL, 0, &number), SAM_NONE);
    WANT(number, 9);
    for (uint64_t next = 1; next < 1000; next++) {
        WANT(asks(&overlay, SAM_EVENT_DCLICK, 99, 0, &number), SAM_OK);
        WANT(number, next);
    }
    WANT(sam_overlay_replace(&overlay, 1, 0, 0, BYTES("x")), SAM_OK);
    WANT(asks(&overlay, SAM_EVENT_CLOSE, 0, 0, &number), SAM_OK);
    WANT(sam_overlay_replace(&overlay, 1, 9, 0, BYTES("x")), SAM_REFUSAL_NOT_OPEN);
    WANT(sam_overlay_replace(&overlay, 9, 0, 0, BYTES("x")), SAM_REFUSAL_NO_FILE);
    WANT(asks(&overlay, SAM_EVENT_EXIT, 0, 0, &number), SAM_TOO_MANY);
    WANT(number, 1000);
    WANT(turn(&overlay), SAM_TURN_REQUEST);
    step_tells(&overlay, SAM_STEP_REFUSED, 1);
    WANT(asks(&overlay, SAM_EVENT_EXIT, 0, 0, &number), SAM_OK);
    WANT(number, 1001);
    WANT(sam_overlay_replace(&overlay, 1, 9, 0, BYTES("x")), SAM_REFUSAL_EXITED);
    WANT(sam_overlay_replace(&overlay, 9, 0, 0, BYTES("\xFF")), SAM_NOT_TEXT);
    WANT(put(&overlay), SAM_PUT_NOT_FREE);
    free_both(&host, &overlay);
}

int main(void)
{
    asked_in_order();
    asked_for_twice();
    asked_and_refused();
    WANT((unsigned long)blocks, 0);
    puts("the requests of an overlay are right");
    return 0;
}
