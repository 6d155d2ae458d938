/* The calls of the library that are C, and not proved: its version, words for a status, two loops of proved calls, and one that hands a
 * proved call the lengths beside the pointers. */
#include "sulgrevad.h"

/* The kinds of the frames that edit a text or load it, by their numbers on the wire; and how many runes one brings at most. */
enum { HDATA = 73, HGROWDATA = 77, HCUT = 81, MOST_RUNES = 512 };

uint32_t sam_library_version(void)
{
    return SAM_VERSION;
}

bool sam_is_stop(sam_status status)
{
    uint32_t number = (uint32_t)status;
    bool is_of_stream = SAM_STREAM < number && number < SAM_TRUNCATED;

    return is_of_stream || (SAM_HOST_REFUSED < number && number <= SAM_HOST_COMMAND_FILE) ||
           (SAM_TERM_REFUSED < number && number <= SAM_TERM_COUNT_FULL) || number == SAM_SERVER_COUNT_FULL;
}

#define TEXT(status, sentence)                                                                                                             \
    case status:                                                                                                                           \
        return #status ": " sentence

const char *sam_status_text(sam_status status)
{
    switch ((uint32_t)status) { /* as a number, since the first number of a family is no status */
        TEXT(SAM_OK, "the call did what it was asked");
        TEXT(SAM_NO_MEMORY, "out of memory; what the call brought was not taken, so make it again");
        TEXT(SAM_UNFINISHED, "out of memory; what the call brought was taken, so feed no bytes to go on");
        TEXT(SAM_COUNT_FULL, "a stream has 2^64 bytes, or there were 2^64 events or connections, or 2^32 tasks");
        TEXT(SAM_NO_HANDLE, "the handle is NULL or empty: it was not made yet, or it was freed");
        TEXT(SAM_MADE, "the handle is made already");
        TEXT(SAM_NOT_TEXT, "the bytes are not UTF-8");
        TEXT(SAM_NONE, "there is no such file, or nothing more to hand out");
        TEXT(SAM_WAITING, "some of what came before waits, so make steps or take the splices first; what the call brought was not taken");
        TEXT(SAM_NO_ROOM, "the buffer has less room than what is handed out may need, and nothing was done");
        TEXT(SAM_TOO_MANY, "1,000 requests wait or 1,000 tasks are open, so go on first; what the call brought was not taken");
        TEXT(SAM_ADD_TOO_LONG, "the name has more than 64 runes, or the text more than 1,000,000");
        TEXT(SAM_ADD_NO_TAG, "all 65,536 tags were given");
        TEXT(SAM_MARK_COMMAND_FILE, "the file is the command file, which is never dirty");
        TEXT(SAM_MARK_NOT_ANNOUNCED, "the terminal was not told the file's name yet");
        TEXT(SAM_BAD_KIND, "the stream is wrong: it has a message of an unknown kind");
        TEXT(SAM_BAD_LENGTH, "the stream is wrong: a message has a length that its kind can't have");
        TEXT(SAM_BAD_TEXT, "the stream is wrong: a text is not UTF-8, or too long");
        TEXT(SAM_TRUNCATED, "the stream ends inside a message or frame");
        TEXT(SAM_HOST_NO_FILE, "the host refused a message: no file has its tag");
        TEXT(SAM_HOST_NOT_OPEN, "the host refused a message: its file is not open");
        TEXT(SAM_HOST_BAD_POSITION, "the host refused a message: a place is after the end, or a range ends before it begins");
        TEXT(SAM_HOST_TOO_LONG, "the host refused a message: the file would have more than 1,000,000 runes");
        TEXT(SAM_HOST_BAD_VERSION, "the host refused a message: there is no version 0");
        TEXT(SAM_HOST_COUNT_FULL, "the host refused a message: it has taken 2^64-1 of them");
        TEXT(SAM_HOST_COMMAND_FILE, "the host refused a message: it is not for the command file");
        TEXT(SAM_TERM_FROM_THE_FUTURE, "the terminal refused a frame: it answers a message that was not sent yet");
        TEXT(SAM_TERM_NO_FILE, "the terminal refused a frame: no file has its tag");
        TEXT(SAM_TERM_NOT_OPEN, "the terminal refused a frame: its file is not open");
        TEXT(SAM_TERM_ALREADY_BOUND, "the terminal refused a frame: its file is known or open already");
        TEXT(SAM_TERM_BAD_POSITION, "the terminal refused a frame: a place is after the end, or a range ends before it begins");
        TEXT(SAM_TERM_TOO_LONG, "the terminal refused a frame: the file would have more than 1,000,000 runes");
        TEXT(SAM_TERM_LOCK_NOT_HELD, "the terminal refused a frame: it frees a lock that is not held");
        TEXT(SAM_TERM_COUNT_FULL, "the terminal has composed 2^64-1 messages");
        TEXT(SAM_REFUSAL_EXITED, "the event was refused: the session is over");
        TEXT(SAM_REFUSAL_NO_FILE, "the event was refused: no file has its tag");
        TEXT(SAM_REFUSAL_NOT_OPEN, "the event was refused: its file is not open");
        TEXT(SAM_REFUSAL_BAD_POSITION, "the event was refused: a place is after the end, or a range ends before it begins");
        TEXT(SAM_REFUSAL_TOO_LONG, "the event was refused: the file would have more than 1,000,000 runes");
        TEXT(SAM_REFUSAL_TEXT_TOO_LONG,
             "the event was refused: more than 512 runes were typed, or the snarf buffer is too long for a message");
        TEXT(SAM_REFUSAL_COMMAND_FILE,
             "the event was refused: the command file is never opened, closed, written, edited or made the work file so");
        TEXT(SAM_REFUSAL_BAD_VERSION, "the event was refused: there is no version 0");
        TEXT(SAM_SCRIPT_LINE, "the script has a line that is wrong or can't be done");
        TEXT(SAM_SCRIPT_COUNT_FULL, "the script has a line that would count more than 2^64-1 messages");
        TEXT(SAM_LINK_NOT_A_LINK, "the bytes are not the hello of a link");
        TEXT(SAM_LINK_OTHER_VERSION, "the hello is of another version of the link");
        TEXT(SAM_LINK_BAD_HELLO, "the hello says nothing that this side takes");
        TEXT(SAM_LINK_NO_SESSION, "the terminal resumes a session, and the host has none of this id");
        TEXT(SAM_LINK_OTHER_SESSION, "the hello is of another session");
        TEXT(SAM_LINK_OLD_ATTEMPT, "the hello is of a connection that is not the newest");
        TEXT(SAM_LINK_WRONG_COUNT, "the hello counts bytes that can't have come");
        TEXT(SAM_LINK_WRONG_ROLE, "the call is one of the other side of a link, or no side has this number");
        TEXT(SAM_LINK_NOT_OPEN, "the connection is over, is not the newest, or has no hello yet");
        TEXT(SAM_LINK_TOO_LONG, "the note has more than 4,096 bytes");
        TEXT(SAM_LINK_BAD_KIND, "a packet of an unknown kind came, and the connection is over");
        TEXT(SAM_LINK_BAD_LENGTH, "a packet came with a length that its kind can't have, and the connection is over");
        TEXT(SAM_LINK_ACK_AHEAD, "bytes are acknowledged that did not go, and the connection is over");
        TEXT(SAM_LINK_NO_ROOM, "the buffer has less room than the longest note, 4,096 bytes");
        TEXT(SAM_LINK_TOO_MANY_WORDS, "more than 65,536 bytes came before the host's hello, and the connection is over");
        TEXT(SAM_LINK_TOO_MANY_ANSWERS, "the host asks and takes no answer, and the connection is over");
        TEXT(SAM_LINK_WRONG_HELLO, "what should be the host's hello is none or doesn't fit, and the connection is over");
        TEXT(SAM_NOTE_BAD_KIND, "no kind of message has this number");
        TEXT(SAM_NOTE_BAD_FIELD, "the message has a field that its kind has not");
        TEXT(SAM_NOTE_BAD_LENGTH, "the message has too few bytes or too many for its fields, or more than there is room for");
        TEXT(SAM_NOTE_BAD_PATH, "a path in the message has a zero byte");
        TEXT(SAM_NOTE_BAD_TEXT, "the text of the message is not UTF-8");
        TEXT(SAM_JOURNAL_SHORT, "the journal has fewer bytes than its head, 24");
        TEXT(SAM_JOURNAL_NOT_A_JOURNAL, "the bytes are not those of a journal");
        TEXT(SAM_JOURNAL_OTHER_VERSION, "the journal has another version of the format");
        TEXT(SAM_JOURNAL_DAMAGED_HEAD, "the journal is damaged: the sum of its head is wrong");
        TEXT(SAM_JOURNAL_DAMAGED, "the journal is damaged: its whole records end before what was durable");
        TEXT(SAM_JOURNAL_TORN, "no whole record of this number stands at this place of the journal");
        TEXT(SAM_JOURNAL_TOO_LONG, "the body of the record has 2^32 bytes or more");
        TEXT(SAM_SERVER_COUNT_FULL, "a stream of the durable server would have 2^64 bytes, and it has stopped");
        TEXT(SAM_SERVER_NO_RECORD, "the bytes are those of no record of a durable server");
        TEXT(SAM_SERVER_NOT_TAKEN, "the records before it lead to no server that takes this record");
        TEXT(SAM_SERVER_EFFECT_WAITS, "an effect of the durable server is to be done before");
    }
    return "unknown status";
}

/* Whether a frame that is next edits the text of the file in which `last` was an edit, or of any where that is NULL. Hgrowdata and Hcut
 * edit, and each has to begin at the place `first` or below, and to end where the last one began, or above. */
static bool is_next_edit(const sam_did *next, const sam_did *last, uint32_t first)
{
    if (next->kind != HGROWDATA && next->kind != HCUT)
        return false;
    if (last != NULL && (next->tag != last->tag || next->start > last->start || next->gone > last->start - next->start))
        return false;
    return next->start >= first;
}

sam_status sam_term_step_edits(sam_term *term, uint32_t first, sam_did *did, size_t most, size_t *got)
{
    sam_status status = sam_term_pending(term, got); /* it tells whether the handle is made */

    if (status != SAM_OK)
        return status;
    *got = 0;
    while (*got < most) {
        const sam_did *last = *got > 0 ? &did[*got - 1] : NULL;
        if (sam_term_next_frame(term, &did[*got]) != SAM_OK || !is_next_edit(&did[*got], last, first))
            return SAM_OK;
        status = sam_term_step(term, &did[*got]);
        if (status != SAM_OK)
            return status;
        if (did[*got].step == SAM_STEP_RECEIVED) /* else it wrote what was left over */
            ++*got;
    }
    return SAM_OK;
}

/* Whether a step edits a text or loads it: by a frame, or by an edit of the user's that is shown already. */
static bool is_edit(sam_client_event kind, const sam_did *did)
{
    if (kind != SAM_CLIENT_STEPPED)
        return false;
    if (did->step == SAM_STEP_RECEIVED)
        return did->kind == HDATA || did->kind == HGROWDATA || did->kind == HCUT;
    return did->step == SAM_STEP_ACTED && did->request == 0;
}

static bool has_room(const sam_changes *changes)
{
    return changes->got < changes->most && changes->room - changes->used >= MOST_RUNES;
}

/* Takes the splices of the last step, each with the runes that it brought, until there is no room: SAM_OK. SAM_NONE if none is left. */
static sam_status take_splices(sam_client *client, sam_changes *changes)
{
    sam_status status = SAM_OK;

    while (status == SAM_OK && has_room(changes)) {
        sam_splice *splice = &changes->splices[changes->got];
        status = sam_client_next_splice(client, splice);
        if (status != SAM_OK)
            break;
        if (splice->kind != SAM_SPLICE_WENT) {
            size_t room = changes->room - changes->used;
            room = splice->count < room ? splice->count : room; /* no frame of these brings more than there is room for */
            status = sam_client_read(client, splice->tag, splice->place, &changes->runes[changes->used], room, &splice->count);
            changes->used += splice->count;
        }
        ++changes->got;
    }
    return status;
}

sam_status sam_client_step_edits(sam_client *client, uint64_t now, sam_changes *changes, sam_client_event *kind, sam_did *did)
{
    sam_status status = sam_client_requests(client, &changes->got); /* it tells whether the handle is made */

    if (status != SAM_OK)
        return status;
    changes->got = changes->used = 0;
    for (size_t steps = 0; steps < changes->most && has_room(changes); ++steps) {
        status = sam_client_next_event(client, now, kind, did);
        if (status == SAM_OK && *kind == SAM_CLIENT_IDLE && steps > 0)
            *kind = SAM_CLIENT_BUSY;
        if (status != SAM_OK || !is_edit(*kind, did))
            return status;
        status = take_splices(client, changes);
        if (status != SAM_NONE)
            return status;
    }
    *kind = SAM_CLIENT_BUSY;
    *did = (sam_did){.step = SAM_STEP_IDLE};
    return SAM_OK;
}

/* The proved function of this name, which takes the length of each of the bytes beside their pointer. */
sam_status proved_sam_note_write(const sam_note *note, const uint8_t *path, size_t path_len, const uint8_t *copy, size_t copy_len,
                                 const uint8_t *text, size_t text_len, uint8_t *into, size_t room, size_t *len);

sam_status sam_note_write(const sam_note *note, const uint8_t *path, const uint8_t *copy, const uint8_t *text, uint8_t *into, size_t room,
                          size_t *len)
{
    return proved_sam_note_write(note, path, note->path_len, copy, note->copy_len, text, note->text_len, into, room, len);
}
