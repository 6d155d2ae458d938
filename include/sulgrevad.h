/* sulgrevad.h: a proved host and a proved terminal for editors whose screen and text live apart, after Rob Pike's sam.
 *
 * ==== Begin here ====
 *
 * A host is the server: it holds whole texts and runs commands. A terminal is the client: it holds windows, and of each open text the
 * parts that it has loaded. Neither of them reads or writes anything, because the program carries the bytes. It feeds each side with the
 * bytes that came from the other, and sends the bytes that are pending, in order:
 *
 *     sam_term_type(&term, tag, ..)      an event of the user
 *     sam_term_take_out(&term, ..)       bytes for the host
 *     sam_host_feed(&host, ..)           the host answers
 *     sam_host_take_out(&host, ..)       bytes for the terminal
 *     sam_term_feed(&term, ..)           the terminal has the answer, and the program draws
 *
 * docs/howto/EMBEDDING.md has a whole program. An install has this page and those named below in share/doc/sulgrevad.
 *
 * Words. A tag is a file's number. Tag 0 is the command file: the host runs each line that is typed into it as a command. A place is an
 * offset: a number of runes from the start of a text. The dot is the selection. The snarf buffer is the clipboard: the host holds it, and
 * it has the text that was cut or copied last. A gap is a rune that a terminal has not loaded. A lock holds events back until the host has
 * answered. A message goes to the host, a frame to the terminal. To compose a message is to make it and to queue it for the host.
 * docs/reference/GLOSSARY.md explains the other words, docs/reference/PROTOCOL.md the messages (Twrite, Texit),
 * docs/reference/COMMANDS.md the command language.
 *
 * Units. Places and lengths of texts count runes (Unicode scalar values). A text has at most 1,000,000. Texts go in and out as UTF-8 (RFC
 * 3629), and the length beside a pointer to one counts bytes. sam_term_read, sam_overlay_read, sam_client_read and sam_client_step_edits
 * alone hand out runes as numbers. Names and texts may hold NUL (U+0000) as they hold any other rune, and no call adds one at their end: go
 * by the lengths. Runes are counted by uint32_t; bytes in memory, the room of a buffer, tags and lines of a script by size_t; events,
 * messages and the bytes of a whole stream by uint64_t.
 *
 * Handles. sam_host, sam_term, sam_overlay, sam_link, sam_line, sam_client, sam_server and sam_recovery are the caller's, on the stack or
 * anywhere else. A handle whose bytes are all zero is empty: SAM_HOST_INIT and its like are, and in C so is {0}. sam_host_new and its like
 * make it, and sam_host_free and its like leave it empty again. The caller doesn't read, change or copy a handle that is made. Readers take
 * it without const, because each call takes out the content of the handle and puts it back: two of them may not run at once.
 *
 * Status. Each call returns an enum sam_status, but for sam_library_version, sam_status_text and sam_is_stop, and hands other results out
 * through pointers. A call refuses a handle that is NULL or empty first of all (SAM_NO_HANDLE); its comment says the refusals after that.
 * After SAM_NO_HANDLE, SAM_NO_MEMORY and SAM_NONE, and if a comment below says 'refused', the memory behind these pointers is as it was. A
 * handle that has stopped says why at each feed, even of no bytes.
 *
 * Tags without a file. A tag that was never given and the tag of a closed file are treated alike. For both the calls _has_file,
 * sam_term_is_known, sam_term_is_open, sam_term_is_changed and sam_client_is_unsaved return SAM_OK and hand out false, and
 * sam_overlay_waiting and sam_client_waiting hand out 0. sam_term_locked, and the calls _file as is_locked, hand out whether the command
 * lock is held. All other readers of one file, each _is_dirty too, return SAM_NONE. Of a known file that is not open a terminal has the
 * name and the dirty mark alone: the readers of texts, dots and views return SAM_NONE there too. An event for a file that is not known or
 * not open returns SAM_OK like any other, and is refused when it comes to act: sam_term_next_refusal then names SAM_REFUSAL_NO_FILE or
 * SAM_REFUSAL_NOT_OPEN.
 *
 * Out of memory. Only calls that can return SAM_NO_MEMORY or SAM_UNFINISHED take memory. If memory is short nothing is lost, and no handle
 * ends but that of a recovery. At SAM_NO_MEMORY the input of the call was not taken: make the same call again. At SAM_UNFINISHED it was
 * taken: don't bring it again. The next feed goes on with the work that waits; at a terminal so does the next event, or sam_term_flush_now.
 * An overlay goes on by its next step, a client by sam_client_next_event, a durable server by sam_server_go_on. Readers and _take_out
 * don't. To go on, feed no bytes, or make that call, until it returns neither SAM_UNFINISHED nor SAM_NO_MEMORY: both mean then that memory
 * is still short. Only a fault of the other side's stream, a message or frame that is refused, or a full count of messages or of a durable
 * server stops a handle. Its readers and _take_out go on to work.
 *
 * The caller owes this, and no call can test it. Pointers other than handles are not NULL but for a length or room of 0, lengths are
 * right, buffers don't overlap, and a handle is in one call at a time. A handle may not move between threads while it is in a call. No
 * call is made from a signal handler, or in the child of a fork of a program with threads. A call that has begun returns: no longjmp
 * leaves it, and its thread is not ended in it, or the content of the handle is lost. malloc, realloc and free are those of one allocator.
 */
#ifndef SULGREVAD_H
#define SULGREVAD_H

#include <stdbool.h>
#include <stddef.h>
#include <stdint.h>

#ifdef __cplusplus
extern "C" {
#endif

/* ---- The library's version ---- */

#define SAM_VERSION_MAJOR 0
#define SAM_VERSION_MINOR 1
#define SAM_VERSION_PATCH 0

/* The version as one number, which grows with it: sam_library_version returns that of the library. */
#define SAM_VERSION (SAM_VERSION_MAJOR * 65536 + SAM_VERSION_MINOR * 256 + SAM_VERSION_PATCH)

/* Returns the version of the library that the program runs with, in the form of SAM_VERSION, which is the version of this header. Before
 * 1.0 calls may change when the minor number grows, so a program can compare the two. The protocol has a version of its own:
 * sam_host_version, sam_term_version. */
uint32_t sam_library_version(void);

/* ---- Limits ----
 *
 * docs/reference/PROTOCOL.md has all limits. */

#define SAM_MOST_RUNES 1000000       /* runes of a text */
#define SAM_MOST_IN_TYPE 512         /* runes of one sam_term_type */
#define SAM_MOST_IN_NAME 64          /* runes of a file's name */
#define SAM_MOST_NAME_BYTES 256      /* bytes of the longest name */
#define SAM_MOST_IN_PATTERN 128      /* runes of a pattern */
#define SAM_MOST_PATTERN_BYTES 512   /* bytes of the longest pattern */
#define SAM_MOST_SNARFED_BYTES 32000 /* bytes of sam_term_set_snarf and sam_term_snarfed, in version 2 */

/* ---- The status of a call ---- */

/* Makes a compiler that can do so warn of a dropped status. Define it empty before the include, and there is no warning. */
#ifndef SAM_MUST_USE
#if defined(__cplusplus) && __cplusplus >= 201703L
#define SAM_MUST_USE [[nodiscard]]
#elif defined(__GNUC__)
#define SAM_MUST_USE __attribute__((warn_unused_result))
#else
#define SAM_MUST_USE
#endif
#endif

/* The status of a call. Each family of faults has a range. A status is the first number of its range plus the number of the fault, which
 * docs/reference/PROTOCOL.md has for a stream, a message, a frame or an event. */
enum sam_status {
    SAM_OK = 0,         /* the call did its work */
    SAM_NO_MEMORY = 1,  /* the input of the call was not taken: make the call again */
    SAM_UNFINISHED = 2, /* the input of the call was taken, and some of it waits: feed no bytes to go on */
    SAM_COUNT_FULL = 3, /* a stream of 2^64 bytes, 2^64 events or connections, or 2^32 tasks; the input was not taken */
    SAM_NO_HANDLE = 4,  /* the handle is NULL, or empty: not made yet, or freed */
    SAM_MADE = 5,       /* the handle is made already */
    SAM_NOT_TEXT = 6,   /* the bytes are not UTF-8 */
    SAM_NONE = 7,       /* there is no such file, or nothing more to hand out */
    SAM_WAITING = 8,    /* earlier work waits, and the input was not taken: step, or take the splices that are left, then call again */
    SAM_NO_ROOM = 9,    /* the buffer has less room than what is handed out may need, and nothing was done */
    SAM_TOO_MANY = 10,  /* 1,000 requests wait, or 1,000 tasks or command lines are open, and this one was not taken: go on, ask again */

    SAM_ADD = 16, /* sam_host_add_file refused a file, and the host is as it was */
    /* SAM_ADD + 1 was SAM_ADD_BEGUN, of a host that was fed already: it is not given again */
    SAM_ADD_TOO_LONG = SAM_ADD + 3, /* the name has more than 64 runes, or the text more than 1,000,000 */
    SAM_ADD_NO_TAG = SAM_ADD + 4,   /* all 65,536 tags were given */

    SAM_MARK = 48, /* sam_host_mark_dirty refused to mark a file, and the host is as it was; SAM_NONE if there is no such file */
    SAM_MARK_COMMAND_FILE = SAM_MARK + 2,  /* the command file is never dirty */
    SAM_MARK_NOT_ANNOUNCED = SAM_MARK + 3, /* the terminal was not told the file's name yet */

    SAM_STREAM = 32,                 /* the other side's stream is wrong, and the handle has stopped */
    SAM_BAD_KIND = SAM_STREAM + 1,   /* a kind that this direction doesn't have */
    SAM_BAD_LENGTH = SAM_STREAM + 2, /* a length that the kind can't have */
    SAM_BAD_TEXT = SAM_STREAM + 3,   /* a text that is not UTF-8, or too long */
    SAM_TRUNCATED = SAM_STREAM + 4,  /* it ends inside a message or frame: sam_host_finish, sam_term_finish; the handle goes on */

    SAM_HOST_REFUSED = 64,                        /* the host refused a message, and has stopped */
    SAM_HOST_NO_FILE = SAM_HOST_REFUSED + 1,      /* no file has this tag */
    SAM_HOST_NOT_OPEN = SAM_HOST_REFUSED + 2,     /* the file is not open */
    SAM_HOST_BAD_POSITION = SAM_HOST_REFUSED + 3, /* a place is after the end, or the end of a range before its start */
    SAM_HOST_TOO_LONG = SAM_HOST_REFUSED + 4,     /* the file would have more than 1,000,000 runes */
    SAM_HOST_BAD_VERSION = SAM_HOST_REFUSED + 5,  /* there is no version 0 */
    SAM_HOST_COUNT_FULL = SAM_HOST_REFUSED + 6,   /* the host has taken 2^64-1 messages */
    SAM_HOST_COMMAND_FILE = SAM_HOST_REFUSED + 8, /* the message is not for the command file */

    SAM_TERM_REFUSED = 96, /* the terminal refused a frame, and has stopped; COUNT_FULL may also come of an event */
    SAM_TERM_FROM_THE_FUTURE = SAM_TERM_REFUSED + 1, /* the frame answers a message that was not sent yet */
    SAM_TERM_NO_FILE = SAM_TERM_REFUSED + 2,         /* no file has this tag */
    SAM_TERM_NOT_OPEN = SAM_TERM_REFUSED + 3,        /* the file is not open */
    SAM_TERM_ALREADY_BOUND = SAM_TERM_REFUSED + 4,   /* the file is known or open already */
    SAM_TERM_BAD_POSITION = SAM_TERM_REFUSED + 5,    /* a place is after the end, or the end of a range before its start */
    SAM_TERM_TOO_LONG = SAM_TERM_REFUSED + 6,        /* the file would have more than 1,000,000 runes */
    SAM_TERM_LOCK_NOT_HELD = SAM_TERM_REFUSED + 7,   /* the frame frees a lock that is not held */
    SAM_TERM_COUNT_FULL = SAM_TERM_REFUSED + 8,      /* the terminal has composed 2^64-1 messages */

    SAM_REFUSAL = 128,                           /* the reasons that sam_term_next_refusal gives; the terminal goes on */
    SAM_REFUSAL_EXITED = SAM_REFUSAL + 1,        /* the session is over */
    SAM_REFUSAL_NO_FILE = SAM_REFUSAL + 2,       /* the terminal knows no file of this tag */
    SAM_REFUSAL_NOT_OPEN = SAM_REFUSAL + 3,      /* the file is not open */
    SAM_REFUSAL_BAD_POSITION = SAM_REFUSAL + 4,  /* a place is after the end, or the end of a range before its start */
    SAM_REFUSAL_TOO_LONG = SAM_REFUSAL + 5,      /* the file would have more than 1,000,000 runes */
    SAM_REFUSAL_TEXT_TOO_LONG = SAM_REFUSAL + 6, /* sam_term_type: more than 512 runes; sam_term_set_snarf: too many bytes */
    SAM_REFUSAL_COMMAND_FILE = SAM_REFUSAL + 7,  /* sam_term_open, _close, _write, _work or _edit of tag 0 */
    SAM_REFUSAL_BAD_VERSION = SAM_REFUSAL + 8,   /* sam_term_offer_version of 0 */

    SAM_SCRIPT = 160,                       /* the reason why sam_replay did not replay a script */
    SAM_SCRIPT_LINE = SAM_SCRIPT + 1,       /* a line is wrong or can't be done */
    SAM_SCRIPT_COUNT_FULL = SAM_SCRIPT + 2, /* a line would count more than 2^64-1 messages */

    SAM_LINK = 192, /* the reasons of a link's refusals; the link goes on. The first seven also go over the line, as 17 to 23 */
    SAM_LINK_NOT_A_LINK = SAM_LINK + 1,        /* the bytes are no hello */
    SAM_LINK_OTHER_VERSION = SAM_LINK + 2,     /* a hello of another version */
    SAM_LINK_BAD_HELLO = SAM_LINK + 3,         /* a hello that says nothing which this side takes */
    SAM_LINK_NO_SESSION = SAM_LINK + 4,        /* the terminal resumes a session that the host doesn't have */
    SAM_LINK_OTHER_SESSION = SAM_LINK + 5,     /* the id is another */
    SAM_LINK_OLD_ATTEMPT = SAM_LINK + 6,       /* the connection isn't the newest */
    SAM_LINK_WRONG_COUNT = SAM_LINK + 7,       /* bytes are counted that can't have come */
    SAM_LINK_WRONG_ROLE = SAM_LINK + 8,        /* a call of the other side, or no side at all */
    SAM_LINK_NOT_OPEN = SAM_LINK + 9,          /* the connection is over, replaced, or has no hello yet */
    SAM_LINK_TOO_LONG = SAM_LINK + 10,         /* a note of more than 4,096 bytes */
    SAM_LINK_BAD_KIND = SAM_LINK + 11,         /* a packet of an unknown kind came; this connection is over */
    SAM_LINK_BAD_LENGTH = SAM_LINK + 12,       /* a packet of a length that its kind can't have came; this connection is over */
    SAM_LINK_ACK_AHEAD = SAM_LINK + 13,        /* bytes were acknowledged that didn't go; this connection is over */
    SAM_LINK_NO_ROOM = SAM_LINK + 14,          /* the buffer has less room than the longest note */
    SAM_LINK_TOO_MANY_WORDS = SAM_LINK + 15,   /* more than 65,536 bytes came before the host's hello; this connection is over */
    SAM_LINK_TOO_MANY_ANSWERS = SAM_LINK + 16, /* the host asks and asks, and takes no answer; this connection is over */
    SAM_LINK_WRONG_HELLO = SAM_LINK + 17,      /* what should be the host's hello is none, or doesn't fit; this connection is over */

    SAM_NOTE = 224, /* why bytes are no message of a session, or a message is not written: they are tested in this order */
    SAM_NOTE_BAD_KIND = SAM_NOTE + 1,   /* no kind has this number: a message of a later version, which is skipped */
    SAM_NOTE_BAD_FIELD = SAM_NOTE + 2,  /* sam_note_write: a field that the kind has not is not 0 or not empty */
    SAM_NOTE_BAD_LENGTH = SAM_NOTE + 3, /* too few bytes or too many for its fields; above 4,096, or more than there is room for */
    SAM_NOTE_BAD_PATH = SAM_NOTE + 4,   /* a byte of a path is 0 */
    SAM_NOTE_BAD_TEXT = SAM_NOTE + 5,   /* the text is not UTF-8 */

    SAM_JOURNAL = 256,                           /* why the bytes of a journal are not read, or a record not written */
    SAM_JOURNAL_SHORT = SAM_JOURNAL + 1,         /* a file of fewer than 24 bytes */
    SAM_JOURNAL_NOT_A_JOURNAL = SAM_JOURNAL + 2, /* a file that begins otherwise */
    SAM_JOURNAL_OTHER_VERSION = SAM_JOURNAL + 3, /* a file of another version of the format */
    SAM_JOURNAL_DAMAGED_HEAD = SAM_JOURNAL + 4,  /* the sum of the head is wrong */
    SAM_JOURNAL_DAMAGED = SAM_JOURNAL + 5,       /* the whole records end before what was durable, as a record behind them says */
    SAM_JOURNAL_TORN = SAM_JOURNAL + 6,          /* no whole record of this number stands there */
    SAM_JOURNAL_TOO_LONG = SAM_JOURNAL + 7,      /* a body of 2^32 bytes or more */

    SAM_SERVER = 288,                         /* why a durable server has stopped, hands nothing on, or a record is not taken again */
    SAM_SERVER_COUNT_FULL = SAM_SERVER + 1,   /* its stream or the terminal's would have 2^64 bytes, and it has stopped */
    SAM_SERVER_NO_RECORD = SAM_SERVER + 2,    /* sam_recovery_take: the bytes are those of no record */
    SAM_SERVER_NOT_TAKEN = SAM_SERVER + 3,    /* sam_recovery_take: the records before it lead to no server that takes it */
    SAM_SERVER_EFFECT_WAITS = SAM_SERVER + 4, /* sam_server_heir: an effect is to be done before */

    SAM_STATUS_WIDTH = 0x7FFFFFFF /* never returned: it keeps the type at 32 bits under any compiler's options */
};
typedef enum sam_status sam_status;

/* Returns the name of a status and a sentence about it, as "SAM_NOT_TEXT: the bytes are not UTF-8". For any other number it returns
 * "unknown status". The text ends in NUL. The library owns it: it stays, and any thread may read it. */
const char *sam_status_text(sam_status status);

/* Returns whether a status says that the handle has stopped for good. A feed, an event or a step returns one of these if the other side's
 * stream is wrong or was refused, if a terminal has composed 2^64-1 messages, or if a count of a durable server is full. After any other
 * status the handle goes on: SAM_NO_MEMORY, SAM_UNFINISHED, SAM_COUNT_FULL, SAM_NOT_TEXT, SAM_TRUNCATED. */
bool sam_is_stop(sam_status status);

/* ---- Handles ---- */

/* The handle of a host. Both fields are the library's. */
struct sam_host {
    void *at;
    uint64_t made;
};
typedef struct sam_host sam_host;

/* The handle of a terminal. Both fields are the library's. */
struct sam_term {
    void *at;
    uint64_t made;
};
typedef struct sam_term sam_term;

/* The handle of an overlay. Both fields are the library's. */
struct sam_overlay {
    void *at;
    uint64_t made;
};
typedef struct sam_overlay sam_overlay;

/* The handle of a link's end. Both fields are the library's. */
struct sam_link {
    void *at;
    uint64_t made;
};
typedef struct sam_link sam_link;

/* The handle of a line. Both fields are the library's. */
struct sam_line {
    void *at;
    uint64_t made;
};
typedef struct sam_line sam_line;

/* The handle of a client. Both fields are the library's. */
struct sam_client {
    void *at;
    uint64_t made;
};
typedef struct sam_client sam_client;

/* The handle of a durable server. Both fields are the library's. */
struct sam_server {
    void *at;
    uint64_t made;
};
typedef struct sam_server sam_server;

/* The handle of a recovery. Both fields are the library's. */
struct sam_recovery {
    void *at;
    uint64_t made;
};
typedef struct sam_recovery sam_recovery;

/* Empty handles, as in `sam_host host = SAM_HOST_INIT;`. */
/* clang-format off */
#define SAM_HOST_INIT {NULL, 0}
#define SAM_TERM_INIT {NULL, 0}
#define SAM_OVERLAY_INIT {NULL, 0}
#define SAM_LINK_INIT {NULL, 0}
#define SAM_LINE_INIT {NULL, 0}
#define SAM_CLIENT_INIT {NULL, 0}
#define SAM_SERVER_INIT {NULL, 0}
#define SAM_RECOVERY_INIT {NULL, 0}
/* clang-format on */

/* ---- Single steps ---- */

/* The kind of a step, which sam_host_step and sam_term_step hand out. */
enum sam_step {
    SAM_STEP_IDLE = 0,     /* nothing: nothing waits, and a terminal holds no event */
    SAM_STEP_LOCKED = 1,   /* nothing: no frame waits, and a lock holds the terminal's oldest event back */
    SAM_STEP_WROTE = 2,    /* the last answer, or the messages that were composed last, are pending now */
    SAM_STEP_EDITED = 3,   /* the host took edits of one file, and the checks (Tcheck) among them, at once: the file, how many messages */
    SAM_STEP_ANSWERED = 4, /* the host answered one message: its kind and its file */
    SAM_STEP_RECEIVED = 5, /* the terminal received one frame: its kind, its file, and the change of that file's text */
    SAM_STEP_ACTED = 6,    /* one event acted: its number, its file, and the change of that file's text */
    SAM_STEP_REFUSED = 7,  /* one event was refused: its number and why; sam_term_next_refusal hands that out, too */

    SAM_STEP_WIDTH = 0x7FFFFFFF /* never handed out: it keeps the type at 32 bits under any compiler's options */
};
typedef enum sam_step sam_step;

/* The kinds of messages and frames: those of a terminal's messages begin with T, those of a host's frames with H.
 * docs/reference/PROTOCOL.md has the meaning of each. */
enum sam_kind {
    SAM_KIND_TVERSION = 1,
    SAM_KIND_TSTARTCMDFILE = 2,
    SAM_KIND_TCHECK = 3,
    SAM_KIND_TREQUEST = 4,
    SAM_KIND_TORIGIN = 5,
    SAM_KIND_TSTARTFILE = 6,
    SAM_KIND_TWORKFILE = 7,
    SAM_KIND_TTYPE = 8,
    SAM_KIND_TCUT = 9,
    SAM_KIND_TPASTE = 10,
    SAM_KIND_TSNARF = 11,
    SAM_KIND_TSTARTNEWFILE = 12,
    SAM_KIND_TWRITE = 13,
    SAM_KIND_TCLOSE = 14,
    SAM_KIND_TLOOK = 15,
    SAM_KIND_TSEARCH = 16,
    SAM_KIND_TSEND = 17,
    SAM_KIND_TDCLICK = 18,
    SAM_KIND_TSTARTSNARF = 19,
    SAM_KIND_TSETSNARF = 20,
    SAM_KIND_TACK = 21,
    SAM_KIND_TEXIT = 22,

    SAM_KIND_HVERSION = 65,
    SAM_KIND_HBINDNAME = 66,
    SAM_KIND_HCURRENT = 67,
    SAM_KIND_HNEWNAME = 68,
    SAM_KIND_HMOVNAME = 69,
    SAM_KIND_HGROW = 70,
    SAM_KIND_HCHECK = 71,
    SAM_KIND_HUNLOCK = 72,
    SAM_KIND_HDATA = 73,
    SAM_KIND_HORIGIN = 74,
    SAM_KIND_HUNLOCKFILE = 75,
    SAM_KIND_HSETDOT = 76,
    SAM_KIND_HGROWDATA = 77,
    SAM_KIND_HMOVETO = 78,
    SAM_KIND_HCLEAN = 79,
    SAM_KIND_HDIRTY = 80,
    SAM_KIND_HCUT = 81,
    SAM_KIND_HSETPAT = 82,
    SAM_KIND_HDELNAME = 83,
    SAM_KIND_HCLOSE = 84,
    SAM_KIND_HSETSNARF = 85,
    SAM_KIND_HSNARFLEN = 86,
    SAM_KIND_HACK = 87,
    SAM_KIND_HEXIT = 88
};

/* The result of a step. A field that is not of its step is 0, and so is the tag if the message, frame or event names no file. */
struct sam_did {
    uint64_t event;   /* the event's number, counted from 1 over all event calls that were taken */
    uint64_t request; /* the request's number, as sam_client_ask or sam_overlay_ask handed it out; 0 if no request did this */
    size_t count;     /* the number of messages that the host took: 1 for SAM_STEP_ANSWERED, 1 or more for SAM_STEP_EDITED */
    sam_step step;
    sam_status why; /* the reason why the event was refused: SAM_REFUSAL.. */
    uint32_t start; /* the change: from this place on, `gone` runes or gaps of the old text gave way to `came` of the new one; or, at
                       SAM_CLIENT_RAN, what a command line printed: `came` runes from this place of the command file on */
    uint32_t gone;
    uint32_t came;
    uint32_t task; /* the task's number, as sam_client_begin or sam_client_write handed it out; 0 if this is the end of none */
    uint16_t tag;  /* the file */
    uint8_t kind;  /* the kind of the message or frame: enum sam_kind */
    bool loads;    /* whether the frame loads runes in the place of gaps (Hdata): more of the text is known, and nothing changed */
};
typedef struct sam_did sam_did;

/* ---- Many readers at once ---- */

/* The state of a terminal, which sam_term_state hands out. Each field is the result of the reader of its name. */
struct sam_state {
    uint64_t events;
    uint64_t decided;
    uint64_t held;
    uint64_t sent;
    uint64_t under_way;
    size_t pending;
    size_t tags;
    uint32_t unsent;
    uint32_t snarf_len;
    uint16_t version;
    bool command_locked;
    bool exited;
};
typedef struct sam_state sam_state;

/* The state of a terminal's file, which sam_term_file hands out. Each field is the result of its reader. If there is no such file, or it
 * is not open, the fields that need it are 0 or false. is_free says whether an edit would act at once: the file is open and not locked, no
 * frame waits, no event is held, not even one of another file, and the session goes on. While it is false an edit acts later, and its
 * places are those of the text by then: so a program that changes its own text first asks is_free before. */
struct sam_file {
    uint32_t len;
    uint32_t dot_start;
    uint32_t dot_end;
    uint32_t view_start;
    uint32_t view_end;
    bool is_known;
    bool is_open;
    bool is_dirty;
    bool is_changed;
    bool is_locked;
    bool is_free;
};
typedef struct sam_file sam_file;

/* ==== The host ==== */

/* ---- The host: making and freeing ---- */

/* Makes a host with the command file alone (tag 0). Refused, in this order: SAM_NO_HANDLE if the handle is NULL; SAM_MADE if it is made
 * already; SAM_NO_MEMORY. The handle is then as it was. */
SAM_MUST_USE sam_status sam_host_new(sam_host *host);

/* Frees a host, with its pending bytes, and leaves the handle empty. Refused: SAM_NO_HANDLE if the handle is NULL or empty. */
sam_status sam_host_free(sam_host *host);

/* Adds a file, clean and closed, and hands out its tag: 1 for the first, 2 for the next, and so on. The name and the text are UTF-8, and
 * both lengths count bytes. A program may call it at any time, also on a host that has stopped. No byte becomes pending, because the answer
 * to the terminal's next Tversion has the name. Messages that wait, as after SAM_UNFINISHED, are answered after the file has joined.
 * Refused, in this order: SAM_NOT_TEXT if the name or the text is not UTF-8; SAM_ADD_TOO_LONG for a name of more than 64 runes or a text of
 * more than 1,000,000; SAM_ADD_NO_TAG after 65,535 files, new ones of the terminal counted; SAM_NO_MEMORY. The host is then as it was. */
SAM_MUST_USE sam_status sam_host_add_file(sam_host *host, const uint8_t *name, size_t name_len, const uint8_t *text, size_t text_len,
                                          uint16_t *tag);

/* ---- The host: bytes in and out ---- */

/* Takes bytes of the terminal's messages, in pieces of any length, and answers each message that is whole. The answers are then pending.
 * Edits of one file that follow each other in one call move its text once; in several calls, each of them moves it. Refused, in this order,
 * and the bytes are then not taken: why the host has stopped before, SAM_STREAM.. or SAM_HOST_REFUSED..; SAM_NO_MEMORY, or why the host
 * stops, as it answers messages that waited; SAM_COUNT_FULL if the stream would have more than 2^64-1 bytes; SAM_NO_MEMORY. Two statuses
 * come after the bytes were taken: SAM_UNFINISHED if memory is short, and why the host stops at a message of these bytes. The host has then
 * answered all messages before the fault. */
SAM_MUST_USE sam_status sam_host_feed(sam_host *host, const uint8_t *bytes, size_t len);

/* Takes bytes of the terminal's messages as sam_host_feed does, but answers none: the messages that are whole wait for sam_host_step.
 * Refused, in this order: why the host has stopped before, SAM_STREAM.. or SAM_HOST_REFUSED..; SAM_WAITING if earlier work is left, which
 * is so until a step has handed out SAM_STEP_IDLE; SAM_COUNT_FULL; SAM_NO_MEMORY. The bytes are then not taken, and the host is as it
 * was. */
SAM_MUST_USE sam_status sam_host_bring(sam_host *host, const uint8_t *bytes, size_t len);

/* Hands out the kind of the oldest message that waits (enum sam_kind), and the tag of the file that it names, or 0. The next step that
 * takes a message begins with this one. Returns SAM_NONE if no message waits. */
SAM_MUST_USE sam_status sam_host_next_message(sam_host *host, uint8_t *kind, uint16_t *tag);

/* Makes one step with the messages that wait, and hands out its result. If frames of the last answer are left over, the step makes them
 * pending. Else the host takes edits of one file that follow each other, with the checks (Tcheck) among them; or, if no edit is next, it
 * answers the oldest message. sam_host_feed makes steps until one is SAM_STEP_IDLE. Refused, in this order, and nothing is handed out then:
 * why the host has stopped before, SAM_STREAM.. or SAM_HOST_REFUSED..; SAM_UNFINISHED if memory is short, and nothing has changed, so make
 * the step again; why the host stops at this step. */
SAM_MUST_USE sam_status sam_host_step(sam_host *host, sam_did *did);

/* Tests whether the terminal's stream may end here. Call it once the host's input has ended. It changes nothing, and takes no memory.
 * Refused, in this order: why the host has stopped before, SAM_STREAM.. or SAM_HOST_REFUSED..; SAM_UNFINISHED if some input still waits for
 * memory; SAM_TRUNCATED if the stream ends inside a message. */
SAM_MUST_USE sam_status sam_host_finish(sam_host *host);

/* Hands out the number of bytes of the terminal's stream before the message that is wrong, if the host has stopped at a fault of the stream
 * (SAM_STREAM..). Returns SAM_NONE if the host goes on, or has stopped at a message that it refused. */
SAM_MUST_USE sam_status sam_host_fault_place(sam_host *host, uint64_t *place);

/* Hands out the number of pending bytes, which are for the terminal. */
SAM_MUST_USE sam_status sam_host_pending(sam_host *host, size_t *len);

/* Moves the first pending bytes into the buffer, as many as fit, and hands out their number. */
SAM_MUST_USE sam_status sam_host_take_out(sam_host *host, uint8_t *into, size_t room, size_t *count);

/* ---- The host: the session ---- */

/* Hands out whether the session is over: the terminal has sent Texit, or a command line was `q`. */
SAM_MUST_USE sam_status sam_host_is_done(sam_host *host, bool *done);

/* Hands out the number of messages that the host has answered. */
SAM_MUST_USE sam_status sam_host_taken(sam_host *host, uint64_t *taken);

/* Hands out the version of the protocol: 1 or 2. */
SAM_MUST_USE sam_status sam_host_version(sam_host *host, uint16_t *version);

/* ---- The host: files that the terminal had written ---- */

/* Hands out the tag of the next file that the terminal asked the host to write (Twrite). Write sam_host_saved of it to disk now. Each
 * Twrite gives its tag once, in order, so a file that was written twice comes twice. Ask after each feed, because the saved text is gone
 * once the file is closed. Returns SAM_NONE if no tag is left. */
SAM_MUST_USE sam_status sam_host_next_written(sam_host *host, uint16_t *tag);

/* Marks a file as dirty, open or not: for a program whose write of it failed, or that has another text on disk. If the file was clean, the
 * frame that says so (Hdirty) is then pending, behind all answers of before. It frees no lock, and no text, dot or name changes. A program
 * may call it at any time, also on a host that has stopped. Messages that wait, as after SAM_UNFINISHED, are answered after the mark.
 * Refused, in this order: SAM_NONE if the tag has no file; SAM_MARK_COMMAND_FILE for tag 0; SAM_MARK_NOT_ANNOUNCED if the terminal was not
 * told the file's name yet: the answer to its next Tversion has the name; SAM_NO_MEMORY. The host is then as it was. */
SAM_MUST_USE sam_status sam_host_mark_dirty(sam_host *host, uint16_t tag);

/* Hands out the length in runes of the text that a file had when it was written last (Twrite). Returns SAM_NONE if the tag has no file, or
 * if the file was never written. */
SAM_MUST_USE sam_status sam_host_saved_len(sam_host *host, uint16_t tag, uint32_t *runes);

/* Copies the text that a file had when it was written last (Twrite), from the place `place` on, as sam_host_text does. Returns SAM_NONE if
 * the tag has no file, or if the file was never written. */
SAM_MUST_USE sam_status sam_host_saved(sam_host *host, uint16_t tag, uint32_t place, uint8_t *into, size_t room, size_t *bytes,
                                       uint32_t *runes);

/* ---- The host: files ---- */

/* Hands out the number of tags that were given, the command file's 0 included: the greatest tag is one less. */
SAM_MUST_USE sam_status sam_host_tags(sam_host *host, size_t *count);

/* Hands out whether the tag has a file now. The tag of a closed file has none. */
SAM_MUST_USE sam_status sam_host_has_file(sam_host *host, uint16_t tag, bool *has);

/* Copies the name of a file in UTF-8, as many whole runes as fit, and hands out the number of bytes. A room of 256 bytes is always enough.
 * Returns SAM_NONE if the tag has no file. */
SAM_MUST_USE sam_status sam_host_name(sam_host *host, uint16_t tag, uint8_t *into, size_t room, size_t *len);

/* Hands out the length of a file's text in runes. Returns SAM_NONE if the tag has no file. */
SAM_MUST_USE sam_status sam_host_len(sam_host *host, uint16_t tag, uint32_t *runes);

/* Hands out whether a file was edited since it was made or written. The command file, tag 0, is never dirty. Returns SAM_NONE if the tag
 * has no file. */
SAM_MUST_USE sam_status sam_host_is_dirty(sam_host *host, uint16_t tag, bool *dirty);

/* Copies the text of a file from the place `place` on, in UTF-8, as many whole runes as fit. Hands out the number of bytes and the number
 * of runes. Both are 0 if the place is at the end or after it, or if the next rune does not fit: 4 bytes are enough for any. Returns
 * SAM_NONE if the tag has no file. */
SAM_MUST_USE sam_status sam_host_text(sam_host *host, uint16_t tag, uint32_t place, uint8_t *into, size_t room, size_t *bytes,
                                      uint32_t *runes);

/* Hands out the dot of a file: the places where its selection begins and ends. Returns SAM_NONE if the tag has no file. */
SAM_MUST_USE sam_status sam_host_dot(sam_host *host, uint16_t tag, uint32_t *start, uint32_t *end);

/* Hands out the length of the snarf buffer in runes. */
SAM_MUST_USE sam_status sam_host_snarf_len(sam_host *host, uint32_t *runes);

/* Copies the snarf buffer from the place `place` on, in UTF-8, as many whole runes as fit. Hands out the number of bytes and the number of
 * runes. */
SAM_MUST_USE sam_status sam_host_snarf(sam_host *host, uint32_t place, uint8_t *into, size_t room, size_t *bytes, uint32_t *runes);

/* ==== The terminal ==== */

/* ---- The terminal: making and freeing ---- */

/* Makes a terminal that knows no file. Refused, in this order: SAM_NO_HANDLE if the handle is NULL; SAM_MADE if it is made already;
 * SAM_NO_MEMORY. The handle is then as it was. */
SAM_MUST_USE sam_status sam_term_new(sam_term *term);

/* Frees a terminal, with its pending bytes, and leaves the handle empty. Refused: SAM_NO_HANDLE if the handle is NULL or empty. */
sam_status sam_term_free(sam_term *term);

/* ---- The terminal: bytes in and out ---- */

/* Takes bytes of the host's frames, in pieces of any length. The terminal receives each frame that is whole, and then held events act.
 * Refused, in this order, and the bytes are then not taken: why the terminal has stopped before, SAM_STREAM.. or SAM_TERM_REFUSED..;
 * SAM_NO_MEMORY, or why the terminal stops, as it goes on with earlier input; SAM_COUNT_FULL if the stream would have more than 2^64-1
 * bytes; SAM_NO_MEMORY. Two statuses come after the bytes were taken: SAM_UNFINISHED if memory is short, and why the terminal stops at a
 * frame of these bytes or at an event. */
SAM_MUST_USE sam_status sam_term_feed(sam_term *term, const uint8_t *bytes, size_t len);

/* Takes bytes of the host's frames as sam_term_feed does, but receives none: the frames that are whole wait for sam_term_step. Refused, in
 * this order: why the terminal has stopped before, SAM_STREAM.. or SAM_TERM_REFUSED..; SAM_WAITING if earlier work is left, which is so
 * until a step has handed out SAM_STEP_IDLE or SAM_STEP_LOCKED; SAM_COUNT_FULL; SAM_NO_MEMORY. The bytes are then not taken, and the
 * terminal is as it was. */
SAM_MUST_USE sam_status sam_term_bring(sam_term *term, const uint8_t *bytes, size_t len);

/* Hands out the `kind`, `tag`, `start`, `gone` and `loads` of the step that will receive the oldest frame that waits. So a program can read
 * the runes that will go. `came` is 0. Returns SAM_NONE if no frame waits. */
SAM_MUST_USE sam_status sam_term_next_frame(sam_term *term, sam_did *next);

/* Makes one step with the frames and events that wait, and hands out its result. If messages that were composed last are left over, the
 * step makes them pending. Else the terminal receives the oldest frame. If no frame waits, the oldest event acts or is refused.
 * sam_term_feed makes steps until one is SAM_STEP_IDLE or SAM_STEP_LOCKED; the call of an event and sam_term_flush_now make all that are
 * left. Refused, in this order, and nothing is handed out then: why the terminal has stopped before, SAM_STREAM.. or SAM_TERM_REFUSED..;
 * SAM_UNFINISHED if memory is short, and nothing has changed, so make the step again; why the terminal stops at this step. */
SAM_MUST_USE sam_status sam_term_step(sam_term *term, sam_did *did);

/* Makes steps as long as the next frame edits a text (Hgrowdata or Hcut), and hands out the result of each in `did`, which has room for
 * `most` of them. *got counts the results. The room after them is not kept. All edits are of one file. None begins before the place
 * `first`, and none ends after the place where the one before it began. So a program can read the runes that go before the call, and the
 * runes that came after it. Returns SAM_OK also if the next frame is no edit of these. If a step is not made, it returns the status of that
 * step, and *got counts the steps before. After SAM_NO_HANDLE *got is as it was. */
SAM_MUST_USE sam_status sam_term_step_edits(sam_term *term, uint32_t first, sam_did *did, size_t most, size_t *got);

/* Tests whether the host's stream may end here. Call it once the terminal's input has ended. It changes nothing, and takes no memory.
 * Refused, in this order: why the terminal has stopped before, SAM_STREAM.. or SAM_TERM_REFUSED..; SAM_UNFINISHED if some input, or a
 * message that was composed, still waits for memory; SAM_TRUNCATED if the stream ends inside a frame. sam_term_held has the number of
 * events that wait. */
SAM_MUST_USE sam_status sam_term_finish(sam_term *term);

/* Hands out the number of bytes of the host's stream before the frame that is wrong, if the terminal has stopped at a fault of the stream
 * (SAM_STREAM..). Returns SAM_NONE if the terminal goes on, or has stopped because of a refusal. */
SAM_MUST_USE sam_status sam_term_fault_place(sam_term *term, uint64_t *place);

/* Hands out the number of pending bytes, which are for the host. */
SAM_MUST_USE sam_status sam_term_pending(sam_term *term, size_t *len);

/* Moves the first pending bytes into the buffer, as many as fit, and hands out their number. */
SAM_MUST_USE sam_status sam_term_take_out(sam_term *term, uint8_t *into, size_t room, size_t *count);

/* Composes the typed runes that are not sent yet. Call it when the user pauses, before the program sleeps. Refused, in this order: why the
 * terminal has stopped before, SAM_STREAM.. or SAM_TERM_REFUSED..; SAM_NO_MEMORY, or why the terminal stops, as it goes on with earlier
 * input; SAM_TERM_COUNT_FULL after 2^64-1 messages, and then SAM_NO_MEMORY: the runes are as they were. Two statuses come after the runes
 * were composed: SAM_UNFINISHED if memory is short, and why the terminal stops at an event. */
SAM_MUST_USE sam_status sam_term_flush_now(sam_term *term);

/* ---- Events of the user ----
 *
 * An event acts at once if it can. Else the terminal holds it until the locks that it waits for are free and the events before it have
 * acted. Each call also lets held events act, in order. The messages that this composes are then pending. SAM_OK says that the event was
 * taken, and not that it acted: sam_term_decided says whether it did.
 *
 * All calls refuse in this order, and the event is then not taken: SAM_NOT_TEXT, and then SAM_NO_MEMORY, in the three calls that bring a
 * text; why the terminal has stopped before, SAM_STREAM.. or SAM_TERM_REFUSED..; SAM_NO_MEMORY, or why the terminal stops, as it goes on
 * with earlier input; SAM_COUNT_FULL after 2^64-1 events; SAM_NO_MEMORY. Two statuses come after the event was taken: SAM_UNFINISHED if
 * memory is short, and why the terminal stops at an event.
 *
 * An event that was taken may be refused by number, at once or later: sam_term_next_refusal then reports its number and the reason, and
 * the event does nothing. The reasons of all events come first, in this order: SAM_REFUSAL_EXITED if the session is over; and of an event
 * that names a file SAM_REFUSAL_NO_FILE if the terminal doesn't know it, and SAM_REFUSAL_NOT_OPEN if it is not open. The comment of a call
 * says its other reasons. docs/reference/PROTOCOL.md (user events) has the tests of all events in their order. */

/* ---- Events: texts ---- */

/* Types a text in the place of the selection, which is then empty and after the text. The terminal sends the text with the text that is
 * typed after it, at the latest before any other message. Refused by number, after the reasons of all events: SAM_REFUSAL_TEXT_TOO_LONG for
 * more than 512 runes, which sam_term_type_text takes; SAM_REFUSAL_TOO_LONG if the file would have more than 1,000,000 runes. */
SAM_MUST_USE sam_status sam_term_type(sam_term *term, uint16_t tag, const uint8_t *text, size_t len);

/* Types a text of any length: it is cut into events of 512 runes each, but for the last, and they are made in order, as by sam_term_type.
 * An empty text is one event. Hands out how many bytes of the text the events have that were taken. It ends with the first event that is
 * not answered by SAM_OK: what was taken before stays. If that answer is SAM_UNFINISHED, this event was taken, too, and its bytes count;
 * after any other answer they don't. Refused, in this order: SAM_NOT_TEXT; SAM_NO_MEMORY if there is none for the runes of the text. The
 * terminal is then as it was, and the number is 0. Each event may be refused by number, as one of sam_term_type. */
SAM_MUST_USE sam_status sam_term_type_text(sam_term *term, uint16_t tag, const uint8_t *text, size_t len, size_t *taken);

/* Replaces the runes from the place `start` to the place `end` by a text of any length, all or nothing. An empty text takes the runes out.
 * The places are those of the file's text when the event acts. The dot moves as other places do, and the snarf buffer stays as it is.
 * Refused by number, in this order, and nothing is changed then: SAM_REFUSAL_EXITED; SAM_REFUSAL_NO_FILE; SAM_REFUSAL_COMMAND_FILE for tag
 * 0; SAM_REFUSAL_NOT_OPEN; SAM_REFUSAL_BAD_POSITION if `end` is below `start` or after the end of the file; SAM_REFUSAL_TOO_LONG if the
 * file would have more than 1,000,000 runes. */
SAM_MUST_USE sam_status sam_term_edit(sam_term *term, uint16_t tag, uint32_t start, uint32_t end, const uint8_t *text, size_t len);

/* Selects the runes from the place `start` to the place `end`: they are the dot. Refused by number, after the reasons of all events:
 * SAM_REFUSAL_BAD_POSITION if `end` is below `start` or after the end of the file. */
SAM_MUST_USE sam_status sam_term_select(sam_term *term, uint16_t tag, uint32_t start, uint32_t end);

/* Selects the word round a place. Refused by number, after the reasons of all events: SAM_REFUSAL_BAD_POSITION if the place is after the
 * end of the file. */
SAM_MUST_USE sam_status sam_term_dclick(sam_term *term, uint16_t tag, uint32_t place);

/* Selects the next occurrence of the selected text, which becomes the pattern. Nothing changes if the selection is empty or has more than
 * 128 runes. */
SAM_MUST_USE sam_status sam_term_look(sam_term *term, uint16_t tag);

/* Selects the next occurrence of the pattern. Nothing changes if there is no pattern or no occurrence. */
SAM_MUST_USE sam_status sam_term_search(sam_term *term, uint16_t tag);

/* Sends the typed runes, once the events before this one have acted. */
SAM_MUST_USE sam_status sam_term_flush(sam_term *term);

/* ---- Events: the snarf buffer ---- */

/* Cuts the selection into the snarf buffer. Nothing changes if the selection is empty. */
SAM_MUST_USE sam_status sam_term_cut(sam_term *term, uint16_t tag);

/* Copies the selection into the snarf buffer. Nothing changes if the selection is empty. */
SAM_MUST_USE sam_status sam_term_snarf(sam_term *term, uint16_t tag);

/* Pastes the snarf buffer in the place of the selection, and selects it. If the buffer is empty, or the file would have more than 1,000,000
 * runes, the selection goes and nothing comes. */
SAM_MUST_USE sam_status sam_term_paste(sam_term *term, uint16_t tag);

/* Asks for the host's snarf buffer: sam_term_snarfed hands it out once the answer has come. */
SAM_MUST_USE sam_status sam_term_get_snarf(sam_term *term);

/* Gives the host another snarf buffer: at most 4,096 bytes, or 32,000 in version 2. Refused by number: SAM_REFUSAL_EXITED; then
 * SAM_REFUSAL_TEXT_TOO_LONG for a longer text. */
SAM_MUST_USE sam_status sam_term_set_snarf(sam_term *term, const uint8_t *text, size_t len);

/* ---- Events: the view ---- */

/* Shows at most `len` runes of the file from the place `place` on, and asks for those that are not loaded: for at most 512 at a time, and
 * then for the next. It goes on to ask whenever a change brings gaps into the view. An empty view, of `len` 0, asks for nothing by itself.
 * Refused by number, after the reasons of all events: SAM_REFUSAL_BAD_POSITION if the place is after the end of the file. */
SAM_MUST_USE sam_status sam_term_view(sam_term *term, uint16_t tag, uint32_t place, uint32_t len);

/* Shows the same runes as sam_term_view, and asks at once for all that are not loaded, in at most 1,954 stretches of 512 runes. So the
 * longest text comes in one round trip. Each stretch is a message of 11 bytes, and the file is locked until all are answered: if the user
 * may want to type meanwhile, ask for a long text in parts. The view goes on to ask, as sam_term_view says. If a command line puts more
 * than 512 runes in at each of many places, a file that is shown whole stays locked for a round trip a place. So call
 * sam_term_view(term, tag, 0, 0) once all is loaded: then the next sam_term_load asks for all gaps in one round trip. Refused by number as
 * sam_term_view is. */
SAM_MUST_USE sam_status sam_term_load(sam_term *term, uint16_t tag, uint32_t place, uint32_t len);

/* Scrolls the view of the file up by `lines` lines. */
SAM_MUST_USE sam_status sam_term_scroll(sam_term *term, uint16_t tag, uint32_t lines);

/* Asks for the first gap that the view shows. The host answers, and no text changes. */
SAM_MUST_USE sam_status sam_term_check(sam_term *term, uint16_t tag);

/* ---- Events: files ---- */

/* Opens a file. Command lines work on it then. All other events of a file need it open. Refused by number, in this order:
 * SAM_REFUSAL_EXITED; SAM_REFUSAL_NO_FILE; SAM_REFUSAL_COMMAND_FILE for tag 0. */
SAM_MUST_USE sam_status sam_term_open(sam_term *term, uint16_t tag);

/* Makes an empty file, and opens it. Command lines work on it then. If all tags are given it makes none, and the command file says
 * `? no tag`. */
SAM_MUST_USE sam_status sam_term_new_file(sam_term *term);

/* Asks the host to write a file: the host keeps a copy of its text (sam_host_saved), and the file is then clean. Refused by number as
 * sam_term_close is. */
SAM_MUST_USE sam_status sam_term_write(sam_term *term, uint16_t tag);

/* Closes a file for good: the host drops its text, written or not. Refused by number, in this order: SAM_REFUSAL_EXITED;
 * SAM_REFUSAL_NO_FILE; SAM_REFUSAL_COMMAND_FILE for tag 0; SAM_REFUSAL_NOT_OPEN. */
SAM_MUST_USE sam_status sam_term_close(sam_term *term, uint16_t tag);

/* ---- Events: command lines ----
 *
 * A command line is a line that is typed into the command file, or sent to it. Its output comes at the end of that file. A line that is
 * wrong changes nothing and prints `? ` and a word. `? long` comes if the length of the text and all that the line puts in pass 1,000,000
 * runes together. Runes that the line takes away don't count: so `,x/x\n/c/y\n/` is too long in a text of 600,000 runes that has 250,000
 * such lines, though the text would stay as long as it is. */

/* Opens the command file. */
SAM_MUST_USE sam_status sam_term_open_cmd(sam_term *term);

/* Makes a file, with its dot, the one that command lines work on. Refused by number as sam_term_close is. */
SAM_MUST_USE sam_status sam_term_work(sam_term *term, uint16_t tag);

/* Prints the selected text in the command file, and runs its last line as a command. Nothing changes if the selection is empty, or if the
 * command file would have more than 1,000,000 runes. */
SAM_MUST_USE sam_status sam_term_send(sam_term *term, uint16_t tag);

/* ---- Events: the session ---- */

/* Offers a version of the protocol, and asks for all names. Before it the terminal knows none of the host's files, and refuses each event
 * on one. Events after it wait for the answer. Offer the version again to learn of files that joined the host since. Refused by number:
 * SAM_REFUSAL_EXITED; then SAM_REFUSAL_BAD_VERSION for version 0. */
SAM_MUST_USE sam_status sam_term_offer_version(sam_term *term, uint16_t version);

/* Ends the session. */
SAM_MUST_USE sam_status sam_term_exit(sam_term *term);

/* ---- The terminal: events and messages ---- */

/* Hands out the oldest refused event that was not handed out yet: its number, counted from 1 over all event calls that were taken, and the
 * reason (SAM_REFUSAL..). The terminal keeps refusals that nobody asks for. Returns SAM_NONE if there is none. */
SAM_MUST_USE sam_status sam_term_next_refusal(sam_term *term, uint64_t *event, sam_status *why);

/* Hands out the number of event calls that were taken. Right after a call that was taken (SAM_OK, SAM_UNFINISHED) it is the number of that
 * event, by which sam_term_next_refusal names it. */
SAM_MUST_USE sam_status sam_term_events(sam_term *term, uint64_t *events);

/* Hands out the number of events that have acted or were refused. Events are done in order. So if this number equals that of
 * sam_term_events, the event that was taken last has acted or was refused; if it is smaller, that event is held. */
SAM_MUST_USE sam_status sam_term_decided(sam_term *term, uint64_t *events);

/* Hands out the number of held events. No call hands out their texts or places. */
SAM_MUST_USE sam_status sam_term_held(sam_term *term, uint64_t *events);

/* Hands out whether the command lock or a lock of this file is held: an edit of the file would wait. */
SAM_MUST_USE sam_status sam_term_locked(sam_term *term, uint16_t tag, bool *locked);

/* Hands out whether the command lock is held. */
SAM_MUST_USE sam_status sam_term_command_locked(sam_term *term, bool *locked);

/* Hands out the number of typed runes that are not sent yet. */
SAM_MUST_USE sam_status sam_term_unsent(sam_term *term, uint32_t *runes);

/* Hands out the number of messages that were composed. */
SAM_MUST_USE sam_status sam_term_sent(sam_term *term, uint64_t *messages);

/* Hands out the number of messages in flight: those that were composed and that the host has not taken, as far as its frames say. 0 means
 * that it has taken them all. Any other number is an upper bound, because the host sends no frame for some messages: for typing (but for
 * the end of a command line), for the cutting of a selection, and for the acknowledgement that the terminal sends after each
 * sam_term_offer_version. They count until the host answers a later message. sam_term_check asks for an answer that changes no text. */
SAM_MUST_USE sam_status sam_term_under_way(sam_term *term, uint64_t *messages);

/* Hands out whether the host has ended the session. */
SAM_MUST_USE sam_status sam_term_exited(sam_term *term, bool *exited);

/* Hands out the version of the protocol that both sides speak: 1, or 2 if both know it. Version 2 allows longer snarfed texts. */
SAM_MUST_USE sam_status sam_term_version(sam_term *term, uint16_t *version);

/* Hands out the fields of sam_state at once, each as the reader of its name does. */
SAM_MUST_USE sam_status sam_term_state(sam_term *term, sam_state *state);

/* ---- The terminal: files that it knows ---- */

/* Hands out the number of tags that the terminal has room for: each file that it knows has a tag below this. */
SAM_MUST_USE sam_status sam_term_tags(sam_term *term, size_t *count);

/* Hands out whether the terminal knows a file of this tag. */
SAM_MUST_USE sam_status sam_term_is_known(sam_term *term, uint16_t tag, bool *known);

/* Hands out whether a file is open. */
SAM_MUST_USE sam_status sam_term_is_open(sam_term *term, uint16_t tag, bool *open);

/* Copies the name of a known file in UTF-8, as many whole runes as fit, and hands out the number of bytes. A room of 256 bytes is always
 * enough. Returns SAM_NONE if the terminal knows no file of this tag. */
SAM_MUST_USE sam_status sam_term_name(sam_term *term, uint16_t tag, uint8_t *into, size_t room, size_t *len);

/* Hands out whether a known file is dirty, as the host said last. Returns SAM_NONE if the terminal knows no file of this tag. */
SAM_MUST_USE sam_status sam_term_is_dirty(sam_term *term, uint16_t tag, bool *dirty);

/* Hands out whether a file may differ from the text that was written last: the host said that it is dirty, or the user typed into it or cut
 * from it here since. A held event has changed nothing yet. The command file is never written, and never changed. */
SAM_MUST_USE sam_status sam_term_is_changed(sam_term *term, uint16_t tag, bool *changed);

/* Hands out the file that the host's answer to sam_term_work or sam_term_new_file named last. It may be closed since. sam_term_open also
 * changes the file that command lines work on, but not the answer of this call. Returns SAM_NONE if the host has named none yet. */
SAM_MUST_USE sam_status sam_term_current(sam_term *term, uint16_t *tag);

/* Hands out the answers of several readers of one tag at once: sam_term_is_known, _is_open, _is_dirty, _is_changed, _locked, _len, _dot and
 * _view_of, and whether an edit would act at once. A tag without a file is no error. */
SAM_MUST_USE sam_status sam_term_file(sam_term *term, uint16_t tag, sam_file *file);

/* ---- The terminal: texts of open files ---- */

/* The number that stands for a rune that is not loaded. */
#define SAM_GAP UINT32_MAX

/* Hands out the length of an open file in runes, gaps counted. Returns SAM_NONE if the file is not open. */
SAM_MUST_USE sam_status sam_term_len(sam_term *term, uint16_t tag, uint32_t *runes);

/* Copies the runes of an open file from the place `place` on as numbers, as many as there are and fit, with SAM_GAP for each that is not
 * loaded. Hands out their number. The room counts runes. Returns SAM_NONE if the file is not open. */
SAM_MUST_USE sam_status sam_term_read(sam_term *term, uint16_t tag, uint32_t place, uint32_t *into, size_t room, uint32_t *count);

/* Copies the text of an open file from the place `place` on, up to the first rune that is not loaded, in UTF-8, as many whole runes as fit.
 * Hands out the number of bytes and the number of runes. Both are 0 if a gap is at the place, if the place is at the end or after it, or if
 * the next rune does not fit. Returns SAM_NONE if the file is not open. */
SAM_MUST_USE sam_status sam_term_text(sam_term *term, uint16_t tag, uint32_t place, uint8_t *into, size_t room, size_t *bytes,
                                      uint32_t *runes);

/* Counts the bytes that the loaded runes of an open file take in UTF-8 from the place `start` to the place `end`, and the runes there that
 * are not loaded. Runes after the end of the text don't count, and none counts if `end` is not after `start`. The cost of this call and the
 * next six grows by the logarithm of the number of stretches that are loaded or not, wherever the places are, and by at most 1,024 runes.
 * Returns SAM_NONE if the file is not open. */
SAM_MUST_USE sam_status sam_term_bytes(sam_term *term, uint16_t tag, uint32_t start, uint32_t end, size_t *bytes, uint32_t *gaps);

/* Hands out the place after the loaded runes of an open file that `bytes` bytes of UTF-8 hold whole, from the place `start` on. It is at
 * the latest the first gap, or the end of the text; and it is `start` if that is after the end. Returns SAM_NONE if the file is not
 * open. */
SAM_MUST_USE sam_status sam_term_place(sam_term *term, uint16_t tag, uint32_t start, size_t bytes, uint32_t *place);

/* Counts the code units that the loaded runes of an open file take in UTF-16 from the place `start` to the place `end`, two for each rune
 * from U+10000 on and one for any other, and the runes there that are not loaded. Runes after the end of the text don't count, and none
 * counts if `end` is not after `start`. Returns SAM_NONE if the file is not open. */
SAM_MUST_USE sam_status sam_term_units(sam_term *term, uint16_t tag, uint32_t start, uint32_t end, uint32_t *units, uint32_t *gaps);

/* Hands out the place after the loaded runes of an open file that `units` code units of UTF-16 hold whole, from the place `start` on. It is
 * at the latest the first gap, or the end of the text; and it is `start` if that is after the end. Returns SAM_NONE if the file is not
 * open. */
SAM_MUST_USE sam_status sam_term_unit_place(sam_term *term, uint16_t tag, uint32_t start, uint32_t units, uint32_t *place);

/* Hands out the place after the next `lines` line ends (U+000A) of an open file, from the place `start` on: a line begins there. For 0 line
 * ends it is `start`, wherever that is. Returns SAM_NONE if the file is not open, or if a gap or the end of the text comes before the last
 * of them. */
SAM_MUST_USE sam_status sam_term_line(sam_term *term, uint16_t tag, uint32_t start, uint32_t lines, uint32_t *place);

/* Hands out the place where a line of an open file begins: the line that is `lines` lines before the line of the place `start`, or that
 * line itself for 0. Returns SAM_NONE if the file is not open, if a gap comes first, read backwards from `start`, if there are fewer lines,
 * or if `start` is after the end of the text. */
SAM_MUST_USE sam_status sam_term_line_before(sam_term *term, uint16_t tag, uint32_t start, uint32_t lines, uint32_t *place);

/* Counts the line ends (U+000A) among the loaded runes of an open file from the place `start` to the place `end`, and the runes there that
 * are not loaded. Runes after the end of the text don't count, and none counts if `end` is not after `start`. So if all is loaded before a
 * place, the line of that place is 1 plus the line ends from 0 to it. Returns SAM_NONE if the file is not open. */
SAM_MUST_USE sam_status sam_term_lines(sam_term *term, uint16_t tag, uint32_t start, uint32_t end, uint32_t *lines, uint32_t *gaps);

/* Hands out the change of an open file's text since the last call for this file: in the old text `gone` runes or gaps from the place
 * `start` on gave way to `came` of the new one, and all else is as it was. It is the smallest such stretch that holds all that each frame
 * and each event of the user touched by itself. `gone` and `came` are both 0 if none touched anything. Loading touches the runes that it
 * loads: `gone` and `came` are the same there. On the first call for a file its text was empty before. A program that asks after each event
 * and after each frame, while no event is held, gets each edit: it feeds the frames one by one. Refused, in this order, and nothing is
 * handed out then: SAM_NONE if the file is not open; SAM_NO_MEMORY, on the first call for a file alone. */
SAM_MUST_USE sam_status sam_term_changed(sam_term *term, uint16_t tag, uint32_t *start, uint32_t *gone, uint32_t *came);

/* Hands out the first place of an open file, at or after `place`, whose rune is not loaded. Returns SAM_NONE if the file is not open, or if
 * all are loaded from there on: sam_term_is_open tells the two apart. */
SAM_MUST_USE sam_status sam_term_first_gap(sam_term *term, uint16_t tag, uint32_t place, uint32_t *gap);

/* Hands out the dot of an open file: the places where its selection begins and ends. Returns SAM_NONE if the file is not open. */
SAM_MUST_USE sam_status sam_term_dot(sam_term *term, uint16_t tag, uint32_t *start, uint32_t *end);

/* Hands out the view of an open file: the places where it begins and ends. Returns SAM_NONE if the file is not open. */
SAM_MUST_USE sam_status sam_term_view_of(sam_term *term, uint16_t tag, uint32_t *start, uint32_t *end);

/* ---- The terminal: pattern and snarf buffer ---- */

/* Copies the pattern that the host reported last, in UTF-8, as many whole runes as fit, and hands out the number of bytes. A room of 512
 * bytes is always enough. */
SAM_MUST_USE sam_status sam_term_pattern(sam_term *term, uint8_t *into, size_t room, size_t *len);

/* Copies the snarfed text that the host sent last (sam_term_get_snarf), from the place `place` on, in UTF-8, as many whole runes as fit.
 * Hands out the number of bytes and the number of runes. The text may be only the front of the host's buffer, because at most 4,096 bytes
 * come, or 32,000 in version 2. */
SAM_MUST_USE sam_status sam_term_snarfed(sam_term *term, uint32_t place, uint8_t *into, size_t room, size_t *bytes, uint32_t *runes);

/* Hands out the length of the host's snarf buffer in runes, as the host said last. */
SAM_MUST_USE sam_status sam_term_snarf_len(sam_term *term, uint32_t *runes);

/* ==== An overlay ====
 *
 * An overlay is a terminal whose user never waits: it is for an editor that has a text and an undo of its own, and takes each key at once.
 * What the user does is shown at once, also while a lock is held. Until the file is free it waits over the text of the terminal, and the
 * host's changes go through it. The overlay goes on by single steps, and hands out how the shown text changes:
 *
 *     sam_overlay_replace(&overlay, tag, ..)       the user typed: it is shown from now on, and waits
 *     sam_overlay_bring(&overlay, ..)              bytes of the host
 *     sam_overlay_step(&overlay, &did)             a frame is received, or an event acts
 *     sam_overlay_next_splice(&overlay, &splice)   each goes into the editor's own text, until SAM_NONE
 *     sam_overlay_ask(&overlay, &event, ..)        the user asked for something else: a write, a search, a command line
 *     sam_overlay_act_next(&overlay, &turn)        the oldest request may act: the next step has it act
 *     sam_overlay_put_next(&overlay, tag, &put)    the file may be free: the next edit that waits is put, and the next step has it act
 *     sam_overlay_take_out(&overlay, ..)           bytes for the host
 *
 * Requests stand in one order with the edits: so a write saves the text that was shown when it was asked for.
 * Places count runes and gaps of the shown text. So the editor's text is the shown text, if it takes each splice before it tells of an
 * edit, and its places are always right. A replacement makes no splice. No frame takes any of what waits, but one that closes its file.
 * Nothing waits over the command file: typing, cutting and pasting there are events, which are shown once they act.
 * docs/explanation/DESIGN.md says why. */

/* The kind of a splice. */
enum sam_splice_kind {
    SAM_SPLICE_CAME = 1,    /* `count` runes or gaps came in at the place: read them */
    SAM_SPLICE_WENT = 2,    /* `count` runes or gaps from the place on went */
    SAM_SPLICE_FILLED = 3,  /* the `count` runes from the place on are loaded now: read them; nothing moved */
    SAM_SPLICE_EMPTIED = 4, /* the text is empty now: the file was opened, or closed, and what waited over it is gone */

    SAM_SPLICE_WIDTH = 0x7FFFFFFF /* never handed out: it keeps the type at 32 bits under any compiler's options */
};
typedef enum sam_splice_kind sam_splice_kind;

/* A change of the shown text of a file. Of several by one step each is made in the text that the ones before it left. Of those that take
 * runes out or load runes the last place comes first, so none moves another. Where runes give way to others, as in the command file, they
 * go first, and then the others come in at the same place. */
struct sam_splice {
    sam_splice_kind kind;
    uint32_t place; /* where it begins; 0 for SAM_SPLICE_EMPTIED */
    uint32_t count; /* how many runes or gaps; 0 for SAM_SPLICE_EMPTIED */
    uint16_t tag;   /* the file */
};
typedef struct sam_splice sam_splice;

/* The kinds of events that an overlay takes: those that leave each text but that of the command file. Each does what the call sam_term_..
 * of its name does; those of _CMD do it at the command file. Cutting elsewhere is SAM_EVENT_SNARF and a replacement by nothing. */
enum sam_event_kind {
    SAM_EVENT_SELECT = 1,         /* the dot of the file is from `start` to `number` */
    SAM_EVENT_DCLICK = 2,         /* the word round the place `start` */
    SAM_EVENT_LOOK = 3,           /* the next occurrence of the selected text */
    SAM_EVENT_SEARCH = 4,         /* the next occurrence of the pattern */
    SAM_EVENT_FLUSH = 5,          /* sends what is typed */
    SAM_EVENT_SNARF = 6,          /* copies the selection */
    SAM_EVENT_GET_SNARF = 7,      /* asks for the host's snarf buffer */
    SAM_EVENT_SET_SNARF = 8,      /* gives the host another one: the text */
    SAM_EVENT_VIEW = 9,           /* shows the file from the place `start` on, `number` runes */
    SAM_EVENT_LOAD = 10,          /* the same, and asks at once for all that is not loaded there */
    SAM_EVENT_SCROLL = 11,        /* scrolls up by `number` lines */
    SAM_EVENT_CHECK = 12,         /* asks for the first gap that the view shows */
    SAM_EVENT_OPEN = 13,          /* opens the file */
    SAM_EVENT_NEW_FILE = 14,      /* makes an empty file, and opens it */
    SAM_EVENT_WRITE = 15,         /* has the host write the file */
    SAM_EVENT_CLOSE = 16,         /* closes the file for good */
    SAM_EVENT_OPEN_CMD = 17,      /* opens the command file */
    SAM_EVENT_WORK = 18,          /* makes the file the one that command lines work on */
    SAM_EVENT_SEND = 19,          /* sends the selection to the command file, and runs its last line */
    SAM_EVENT_OFFER_VERSION = 20, /* offers `version`, and asks for all names */
    SAM_EVENT_EXIT = 21,          /* ends the session */
    SAM_EVENT_TYPE_CMD = 22,      /* types the text, at most 512 runes, in the place of the command file's dot; a line end runs the line */
    SAM_EVENT_CUT_CMD = 23,       /* cuts the command file's dot into the snarf buffer */
    SAM_EVENT_PASTE_CMD = 24,     /* puts the snarf buffer in the place of the command file's dot */

    SAM_EVENT_WIDTH = 0x7FFFFFFF /* no event: it keeps the type at 32 bits under any compiler's options */
};
typedef enum sam_event_kind sam_event_kind;

/* An event of the user. A field that its kind doesn't name is not read. Its places are those of the terminal's text when it acts; of a
 * request, those of the shown text when it is asked for. */
struct sam_event {
    sam_event_kind kind;
    uint32_t start;
    uint32_t number;
    uint16_t tag; /* the file */
    uint16_t version;
};
typedef struct sam_event sam_event;

/* What became of an edit that waits. */
enum sam_put {
    SAM_PUT_NOTHING = 0,  /* nothing waits over the file: what is shown is the terminal's text */
    SAM_PUT_NOT_FREE = 1, /* it waits on: a lock is held, or frames, events, composed messages or a request come first */
    SAM_PUT_EDIT = 2,     /* it was put, and the next step has it act */

    SAM_PUT_WIDTH = 0x7FFFFFFF /* never handed out: it keeps the type at 32 bits under any compiler's options */
};
typedef enum sam_put sam_put;

/* What became of the oldest request. */
enum sam_turn {
    SAM_TURN_NOTHING = 0, /* none waits */
    SAM_TURN_NOT_YET = 1, /* it waits on: edits before it are left to put, a lock is in its way, or frames, events or messages come first */
    SAM_TURN_REQUEST = 2, /* the terminal has it, and the next step has it act */

    SAM_TURN_WIDTH = 0x7FFFFFFF /* never handed out: it keeps the type at 32 bits under any compiler's options */
};
typedef enum sam_turn sam_turn;

/* ---- The overlay: making and freeing ---- */

/* Makes an overlay over a terminal that knows no file. Refused, in this order: SAM_NO_HANDLE if the handle is NULL; SAM_MADE if it is made
 * already; SAM_NO_MEMORY. The handle is then as it was. */
SAM_MUST_USE sam_status sam_overlay_new(sam_overlay *overlay);

/* Frees an overlay, with what waits and with its pending bytes, and leaves the handle empty. Refused: SAM_NO_HANDLE if the handle is NULL
 * or empty. */
sam_status sam_overlay_free(sam_overlay *overlay);

/* ---- The overlay: bytes in and out, and steps ---- */

/* Takes bytes of the host's frames, in pieces of any length, and receives none: the frames that are whole wait for sam_overlay_step.
 * Refused, in this order, and the overlay is then as it was: why the terminal has stopped before, SAM_STREAM.. or SAM_TERM_REFUSED..;
 * SAM_WAITING if earlier work is left, which is so until a step has handed out SAM_STEP_IDLE or SAM_STEP_LOCKED, and while an edit was put
 * that has not acted; SAM_COUNT_FULL; SAM_NO_MEMORY. */
SAM_MUST_USE sam_status sam_overlay_bring(sam_overlay *overlay, const uint8_t *bytes, size_t len);

/* Makes one step with the frames and events that wait, as sam_term_step does, and hands out its result. Its change is that of the
 * terminal's text; that of the shown text is then handed out by sam_overlay_next_splice. By an edit that was put nothing that is shown
 * changes. If a request acted or was refused, `request` is its number, as sam_overlay_ask handed it out: each is told once, in their order.
 * Refused, in this order, and nothing is handed out then: SAM_WAITING if splices are left; why the terminal has stopped before,
 * SAM_STREAM.. or SAM_TERM_REFUSED..; SAM_UNFINISHED if memory is short, and nothing has changed, so make the step again; why the terminal
 * stops at this step: what is shown, and what waits, is as it was. */
SAM_MUST_USE sam_status sam_overlay_step(sam_overlay *overlay, sam_did *did);

/* Hands out the next change of the shown text by the last step. Returns SAM_NONE if none is left. */
SAM_MUST_USE sam_status sam_overlay_next_splice(sam_overlay *overlay, sam_splice *splice);

/* Tests whether the host's stream may end here, as sam_term_finish does, with its refusals. It changes nothing. */
SAM_MUST_USE sam_status sam_overlay_finish(sam_overlay *overlay);

/* Hands out the number of bytes of the host's stream before the frame that is wrong, as sam_term_fault_place does. */
SAM_MUST_USE sam_status sam_overlay_fault_place(sam_overlay *overlay, uint64_t *place);

/* Hands out the number of pending bytes, which are for the host. */
SAM_MUST_USE sam_status sam_overlay_pending(sam_overlay *overlay, size_t *len);

/* Moves the first pending bytes into the buffer, as many as fit, and hands out their number. */
SAM_MUST_USE sam_status sam_overlay_take_out(sam_overlay *overlay, uint8_t *into, size_t room, size_t *count);

/* ---- The overlay: what the user does ---- */

/* Replaces the shown runes of a file from the place `start` to the place `end` by a text of any length, all or nothing. The new runes stand
 * behind what is shown before `start`. They are shown at once, and wait for sam_overlay_put_next; no lock refuses them, and no request that
 * was asked for before finds them. Refused, in this order, and the overlay is then as it was: SAM_NOT_TEXT; SAM_NO_MEMORY if there is no
 * memory for the runes; SAM_WAITING if splices are left; SAM_REFUSAL_EXITED if a request waits that ends the session; SAM_REFUSAL_NOT_OPEN
 * if one waits that closes the file; SAM_REFUSAL_EXITED if the session is over; why the terminal has stopped before, SAM_STREAM.. or
 * SAM_TERM_REFUSED..; SAM_REFUSAL_NO_FILE; SAM_REFUSAL_COMMAND_FILE for tag 0; SAM_REFUSAL_NOT_OPEN; SAM_REFUSAL_BAD_POSITION if `end` is
 * below `start` or after the end of the shown text; SAM_REFUSAL_TOO_LONG if there are runes, and these, the terminal's text and all that
 * waits over it are more than 1,000,000; SAM_NO_MEMORY, also while an edit of the file was put that has not acted: make steps first. */
SAM_MUST_USE sam_status sam_overlay_replace(sam_overlay *overlay, uint16_t tag, uint32_t start, uint32_t end, const uint8_t *text,
                                            size_t len);

/* Puts the next edit of those that wait over a file as an event, if it can act at once, and hands out what became of it. The edit is one
 * removal, or one insertion of any length, and none that stands behind a request of the file or of the command lock. Call it, and make a
 * step, as long as it hands out SAM_PUT_EDIT. Refused, in this order, and the overlay is then as it was: why the terminal has stopped
 * before, SAM_STREAM.. or SAM_TERM_REFUSED..; SAM_REFUSAL_TOO_LONG if the file would have more than 1,000,000 runes, because the host put
 * more in meanwhile; SAM_COUNT_FULL after 2^64-1 events; SAM_NO_MEMORY. */
SAM_MUST_USE sam_status sam_overlay_put_next(sam_overlay *overlay, uint16_t tag, sam_put *put);

/* Takes back the next insertion that waits over a file, if an edit could act at once and the file has no room for this one: that is where
 * sam_overlay_put_next answers SAM_REFUSAL_TOO_LONG. Copies its runes in UTF-8, all of them, and hands out the number of bytes, and the
 * splice by which they went of the shown text: its kind is SAM_SPLICE_WENT, and its `count` 0 if a later edit had taken them out. They go
 * from the text that each request of the file finds, too, and the places that it names move with that. Refused, in this order, and overlay
 * and buffer are then as they were: SAM_WAITING if splices are left; SAM_NO_ROOM if the room is less than four bytes for each rune that
 * sam_overlay_waiting counts; SAM_NONE if nothing is to be taken back; SAM_NO_MEMORY. */
SAM_MUST_USE sam_status sam_overlay_drop_next(sam_overlay *overlay, uint16_t tag, sam_splice *splice, uint8_t *into, size_t room,
                                              size_t *len);

/* Asks for what is no edit: an event (enum sam_event_kind), with its text if it brings one. It stands in one order with the edits: it acts
 * by sam_overlay_act_next, once all edits before it are put, and finds the text that is shown now, with the host's changes since. A place
 * that it names moves with that text, as of sam_client_ask. Hands out the number of the request, counted from 1 over those that were taken:
 * sam_overlay_step tells by it, once, that the request acted or was refused. A write that would find the same text as one that waits is
 * that one, and has its number. Refused, in this order, and overlay and number are then as they were: SAM_NOT_TEXT if the text is not
 * UTF-8; SAM_NO_MEMORY if there is no memory for its runes; SAM_NONE if no event has this kind; SAM_COUNT_FULL if 2^64-1 requests were
 * taken; SAM_WAITING while an edit was put that has not acted: make a step first; SAM_TOO_MANY if 1,000 requests wait; SAM_COUNT_FULL if
 * 2^32-1 were taken while edits or requests waited; SAM_NO_MEMORY. */
SAM_MUST_USE sam_status sam_overlay_ask(sam_overlay *overlay, const sam_event *event, const uint8_t *text, size_t len, uint64_t *number);

/* Has the oldest request act, if all edits before it are put and it can act at once, and hands out what became of it: at SAM_TURN_REQUEST
 * it waits no more, and the next step has it act, or refuses it. A request waits for the edits of its file; one that takes the command lock
 * for those of all files. Call it before sam_overlay_put_next, and make a step, as long as it hands out SAM_TURN_REQUEST. Its refusals are
 * those of sam_overlay_put_next, in its order, without SAM_REFUSAL_TOO_LONG. */
SAM_MUST_USE sam_status sam_overlay_act_next(sam_overlay *overlay, sam_turn *turn);

/* Hands out the number of requests that wait, those not among them that the terminal has. */
SAM_MUST_USE sam_status sam_overlay_requests(sam_overlay *overlay, size_t *count);

/* Takes an event beside the requests that wait, which stay. It waits for sam_overlay_step. The text is that of SAM_EVENT_SET_SNARF and of
 * SAM_EVENT_TYPE_CMD; for other kinds `len` is 0. An event acts on the terminal's text: so put all that waits over its file first, or ask
 * for it by sam_overlay_ask. Refused, in this order, and the overlay is then as it was: SAM_NOT_TEXT if the text is not UTF-8;
 * SAM_NO_MEMORY if there is no memory for its runes; SAM_NONE if no event has this kind; why the terminal has stopped before, SAM_STREAM..
 * or SAM_TERM_REFUSED..; SAM_WAITING as for sam_overlay_bring; SAM_COUNT_FULL after 2^64-1 events; SAM_NO_MEMORY. */
SAM_MUST_USE sam_status sam_overlay_bring_event(sam_overlay *overlay, const sam_event *event, const uint8_t *text, size_t len);

/* Hands out the oldest refused event that was not handed out yet: its number, counted from 1 over all events that were taken and all edits
 * that were put, and the reason (SAM_REFUSAL..). Returns SAM_NONE if there is none. */
SAM_MUST_USE sam_status sam_overlay_next_refusal(sam_overlay *overlay, uint64_t *event, sam_status *why);

/* ---- The overlay: the terminal ---- */

/* Hands out the fields of sam_state at once, each as the reader sam_term_.. of its name does. */
SAM_MUST_USE sam_status sam_overlay_state(sam_overlay *overlay, sam_state *state);

/* Hands out the answers of several readers of one tag at once, as sam_term_file does. A tag without a file is no error. `len`, the dot and
 * the view are those of the terminal's text. */
SAM_MUST_USE sam_status sam_overlay_file(sam_overlay *overlay, uint16_t tag, sam_file *file);

/* Copies the name of a known file in UTF-8, as many whole runes as fit, and hands out the number of bytes. A room of 256 bytes is always
 * enough. Returns SAM_NONE if the terminal knows no file of this tag. */
SAM_MUST_USE sam_status sam_overlay_name(sam_overlay *overlay, uint16_t tag, uint8_t *into, size_t room, size_t *len);

/* Hands out the file that the host's answer to SAM_EVENT_WORK or SAM_EVENT_NEW_FILE named last. It may be closed since. Returns SAM_NONE if
 * the host has named none yet. */
SAM_MUST_USE sam_status sam_overlay_current(sam_overlay *overlay, uint16_t *tag);

/* Copies the pattern that the host reported last, in UTF-8, as many whole runes as fit, and hands out the number of bytes. A room of 512
 * bytes is always enough. */
SAM_MUST_USE sam_status sam_overlay_pattern(sam_overlay *overlay, uint8_t *into, size_t room, size_t *len);

/* Copies the snarfed text that the host sent last (SAM_EVENT_GET_SNARF), from the place `place` on, in UTF-8, as many whole runes as fit.
 * Hands out the number of bytes and the number of runes. */
SAM_MUST_USE sam_status sam_overlay_snarfed(sam_overlay *overlay, uint32_t place, uint8_t *into, size_t room, size_t *bytes,
                                            uint32_t *runes);

/* ---- The overlay: shown texts of open files ---- */

/* Hands out the number of runes that wait over a file, those that a later edit takes out among them. 0 if the file is not open, or if
 * nothing or only what takes runes out waits. */
SAM_MUST_USE sam_status sam_overlay_waiting(sam_overlay *overlay, uint16_t tag, uint32_t *runes);

/* Hands out the first file from the tag `from` on over which an edit waits, also one that only takes runes out. To find all, go on behind
 * each. Returns SAM_NONE if there is none. */
SAM_MUST_USE sam_status sam_overlay_next_waiting(sam_overlay *overlay, uint16_t from, uint16_t *tag);

/* Hands out the length of the shown text of an open file in runes, gaps counted. Returns SAM_NONE if the file is not open. */
SAM_MUST_USE sam_status sam_overlay_len(sam_overlay *overlay, uint16_t tag, uint32_t *runes);

/* Hands out the first place of the shown text of an open file, at or after `place`, whose rune is not loaded. Returns SAM_NONE if the file
 * is not open, or if all are loaded from there on: sam_overlay_len tells the two apart. */
SAM_MUST_USE sam_status sam_overlay_first_gap(sam_overlay *overlay, uint16_t tag, uint32_t place, uint32_t *gap);

/* Copies the shown runes of an open file from the place `place` on as numbers, as many as there are and fit, with SAM_GAP for each that is
 * not loaded. Hands out their number. The room counts runes. Returns SAM_NONE if the file is not open. */
SAM_MUST_USE sam_status sam_overlay_read(sam_overlay *overlay, uint16_t tag, uint32_t place, uint32_t *into, size_t room, uint32_t *count);

/* Copies the shown text of an open file from the place `place` on, up to the first rune that is not loaded, in UTF-8, as many whole runes
 * as fit. Hands out the number of bytes and the number of runes. Both are 0 if a gap is at the place, if the place is at the end or after
 * it, or if the next rune does not fit. Returns SAM_NONE if the file is not open. */
SAM_MUST_USE sam_status sam_overlay_text(sam_overlay *overlay, uint16_t tag, uint32_t place, uint8_t *into, size_t room, size_t *bytes,
                                         uint32_t *runes);

/* ==== A link ====
 *
 * A link carries the bytes of a session, and notes of the program, over connections that may break at any byte: each byte and each note
 * comes out at the other side once and in order. Each side has an end. docs/reference/LINK.md has the bytes that they say to each other,
 * docs/howto/RECONNECTING.md the order of the calls. An end opens no connection and knows no clock, as a host and a terminal read and write
 * nothing.
 * The terminal's side opens a connection and calls; the host's side answers:
 *
 *     sam_link_call(&link, false, &attempt)           the terminal opened a connection
 *     sam_link_take_out(&link, attempt, ..)           bytes for it: the hello first
 *     sam_link_read_hello(bytes, ..)                  the host has 42 bytes: of which session?
 *     sam_link_answer(&link, bytes, 42)               the end of that session takes the connection
 *     sam_link_welcomed(&link, bytes, 42)             the terminal has the host's 42 bytes
 *     sam_link_feed(&link, attempt, ..)               the bytes that came after the hello
 *     sam_link_take_in(&link, ..)                     the program's bytes among them, and sam_link_next_note the notes
 *
 * A count of a stream counts all its bytes, those of heads too. A piece, a note and an answer are taken whole or not at all. Of these
 * calls sam_link_new, _put, _put_note, _ask, _acknowledge, _feed, _feed_into and _feed_places take memory, the others none. */

/* The side of an end. */
enum sam_link_role { SAM_LINK_TERMINAL = 0, SAM_LINK_HOST = 1 };

/* The state of the newest connection: there is none, or it is over; the terminal has called; both sides have said hello. */
enum sam_link_phase { SAM_LINK_DOWN = 0, SAM_LINK_ASKING = 1, SAM_LINK_OPEN = 2 };

/* The kinds of a hello, but for the refusals, which are 17 to 23 in the order of SAM_LINK_NOT_A_LINK to SAM_LINK_WRONG_COUNT. A terminal
 * that was welcomed once resumes. */
enum sam_link_what { SAM_LINK_BEGIN = 1, SAM_LINK_RESUME = 2, SAM_LINK_TAKE_OVER = 3, SAM_LINK_WELCOME = 4 };

#define SAM_LINK_ID_BYTES 16    /* bytes of a session's id */
#define SAM_LINK_HELLO_BYTES 42 /* bytes of a hello */
#define SAM_LINK_MOST_NOTE 4096 /* bytes of the longest note */

/* The place of bytes in a piece: `len` of them, behind its first `start`. */
struct sam_place {
    size_t start;
    size_t len;
};
typedef struct sam_place sam_place;

/* ---- A link: making and freeing ---- */

/* Makes the end of one side (enum sam_link_role), before its first connection. The id is the session's name: 16 bytes that the terminal
 * chose at random. It is no secret. Refused, in this order: SAM_NO_HANDLE if the handle is NULL; SAM_MADE if it is made already;
 * SAM_LINK_WRONG_ROLE if `role` is neither; SAM_NO_MEMORY. The handle is then as it was. */
SAM_MUST_USE sam_status sam_link_new(sam_link *link, uint32_t role, const uint8_t id[SAM_LINK_ID_BYTES]);

/* Frees an end, with all the bytes that it keeps, and leaves the handle empty. Refused: SAM_NO_HANDLE if the handle is NULL or empty. */
sam_status sam_link_free(sam_link *link);

/* ---- A link: hellos without a handle ---- */

/* Reads the hello with which the bytes begin, and hands out `what` it says (enum sam_link_what, or 17 to 23), the id and the number of the
 * connection. Returns SAM_NONE if nothing is wrong so far, but there are fewer than 42 bytes. Refused, in this order: SAM_LINK_NOT_A_LINK
 * as soon as the bytes differ from the mark; SAM_LINK_OTHER_VERSION with the ninth byte; SAM_LINK_BAD_HELLO with the tenth, if that says
 * nothing. */
SAM_MUST_USE sam_status sam_link_read_hello(const uint8_t *bytes, size_t len, uint32_t *what, uint8_t id[SAM_LINK_ID_BYTES],
                                            uint64_t *attempt);

/* Writes the hello by which a host refuses a connection. `why` is one of SAM_LINK_NOT_A_LINK to SAM_LINK_WRONG_COUNT, and `bytes` are the
 * bytes that came. The hello names the session and the connection of the hello with which they begin; if sam_link_read_hello reads none, it
 * names all zeros. Returns SAM_NONE for any other reason, and the buffer is then as it was. */
SAM_MUST_USE sam_status sam_link_write_refusal(uint32_t why, const uint8_t *bytes, size_t len, uint8_t into[SAM_LINK_HELLO_BYTES]);

/* ---- A link: connections ---- */

/* Begins a connection that the program has opened, at the terminal's end: the connection before is over. Hands out its number, counted from
 * 1, which names it in the calls below. With `take_over`, the session is to begin with the texts of another, as long as no host has
 * welcomed this end. Refused, in this order: SAM_LINK_WRONG_ROLE; SAM_COUNT_FULL after 2^64-1 connections. */
SAM_MUST_USE sam_status sam_link_call(sam_link *link, bool take_over, uint64_t *attempt);

/* Takes the host's hello at the terminal's end: the first 42 bytes that came on the newest connection. Refused, in this order, and nothing
 * is changed then: the refusals of sam_link_read_hello, and SAM_NONE for fewer than 42 bytes; SAM_LINK_WRONG_ROLE; SAM_LINK_NOT_OPEN if no
 * call waits for a welcome; the host's reason, if the host refuses (sam_link_read_hello tells this from the rest, because it hands out 17
 * to 23); SAM_LINK_BAD_HELLO; SAM_LINK_OTHER_SESSION; SAM_LINK_OLD_ATTEMPT; SAM_LINK_WRONG_COUNT. */
SAM_MUST_USE sam_status sam_link_welcomed(sam_link *link, const uint8_t *bytes, size_t len);

/* Takes a connection at the host's end by its first 42 bytes, the terminal's hello: the connection before is over. The connection has the
 * number that sam_link_read_hello hands out. Refused, in this order, and nothing is changed then, nor for the older connection: the
 * refusals of sam_link_read_hello, and SAM_NONE for fewer than 42 bytes; SAM_LINK_WRONG_ROLE; SAM_LINK_BAD_HELLO; SAM_LINK_NO_SESSION;
 * SAM_LINK_OTHER_SESSION; SAM_LINK_OLD_ATTEMPT; SAM_LINK_WRONG_COUNT. */
SAM_MUST_USE sam_status sam_link_answer(sam_link *link, const uint8_t *bytes, size_t len);

/* Ends a connection at this end, because it broke or because the program gives it up. Nothing changes if it isn't the newest. */
SAM_MUST_USE sam_status sam_link_broken(sam_link *link, uint64_t attempt);

/* ---- A link: bytes and notes to send ---- */

/* Puts bytes for the other side's program, all or none, with or without a connection. Refused, in this order: SAM_COUNT_FULL if the stream
 * would have more than 2^64-1 bytes; SAM_NO_MEMORY. */
SAM_MUST_USE sam_status sam_link_put(sam_link *link, const uint8_t *bytes, size_t len);

/* Puts a note behind all bytes that were put: it comes out after these bytes and before later ones. Refused, in this order:
 * SAM_LINK_TOO_LONG for more than 4,096 bytes; SAM_COUNT_FULL; SAM_NO_MEMORY. */
SAM_MUST_USE sam_status sam_link_put_note(sam_link *link, const uint8_t *bytes, size_t len);

/* Asks the other side to acknowledge now. So a program finds out that a line carries nothing any more: if no byte comes, it is broken.
 * Refused, in this order: SAM_COUNT_FULL; SAM_NO_MEMORY. */
SAM_MUST_USE sam_status sam_link_ask(sam_link *link);

/* Acknowledges all bytes that have come. The end does so by itself when it is asked, and after each 16,384 bytes. Refused, in this order:
 * SAM_COUNT_FULL; SAM_NO_MEMORY. */
SAM_MUST_USE sam_status sam_link_acknowledge(sam_link *link);

/* ---- A link: bytes out and in ---- */

/* Moves the next bytes for a connection into the buffer, as many as there are and fit, and hands out their number: first the hello, and
 * then the stream from the place where this connection goes on. Before the welcome, a terminal's end hands out bytes of the stream on the
 * first connection alone. Refused: SAM_LINK_NOT_OPEN if the connection is over or isn't the newest. */
SAM_MUST_USE sam_status sam_link_take_out(sam_link *link, uint64_t attempt, uint8_t *into, size_t room, size_t *count);

/* Takes bytes that came on a connection after the hello, in pieces of any length, all or none. Refused, in this order: SAM_LINK_NOT_OPEN if
 * the connection is over, isn't the newest, or has no hello yet; SAM_COUNT_FULL if the other side's stream would have more than 2^64-1
 * bytes; SAM_NO_MEMORY, and the piece may be fed again. Three other refusals end the connection, and change nothing else: SAM_LINK_BAD_KIND
 * or SAM_LINK_BAD_LENGTH if the piece has a wrong packet; else SAM_LINK_ACK_AHEAD if it acknowledges bytes that this connection wasn't
 * given. */
SAM_MUST_USE sam_status sam_link_feed(sam_link *link, uint64_t attempt, const uint8_t *bytes, size_t len);

/* Takes bytes that came as sam_link_feed does, and then moves bytes into the buffer as sam_link_take_in does, again and again, until that
 * hands out 0. Hands out the number of bytes that it moved: if they fill the buffer, more may wait for sam_link_take_in. The buffer may not
 * overlap the bytes that came. If nothing is left of earlier pieces, no note and no part of a packet, the bytes are copied once instead of
 * twice. Refused as sam_link_feed is. */
SAM_MUST_USE sam_status sam_link_feed_into(sam_link *link, uint64_t attempt, const uint8_t *bytes, size_t len, uint8_t *into, size_t room,
                                           size_t *count);

/* Takes bytes that came as sam_link_feed does, and hands out the places of the program's bytes among them: no byte is copied. It hands out
 * places only if nothing is left of earlier pieces, no note and no part of a packet: it then takes in whole packets, a place for each,
 * until there is no room for a place (`most` of them), or a note is next, or nothing. Hands out the number of places that it wrote, else 0.
 * More bytes may wait for sam_link_take_in. Refused as sam_link_feed is. */
SAM_MUST_USE sam_status sam_link_feed_places(sam_link *link, uint64_t attempt, const uint8_t *bytes, size_t len, sam_place *places,
                                             size_t most, size_t *count);

/* Moves the next bytes of the other side's program into the buffer, as many as one packet has left and fit, and hands out their number.
 * Call it until it hands out 0: then a note is next, or nothing. */
SAM_MUST_USE sam_status sam_link_take_in(sam_link *link, uint8_t *into, size_t room, size_t *count);

/* Moves the note that is next into the buffer, and hands out its length in bytes, which may be 0. Refused, in this order: SAM_LINK_NO_ROOM
 * if the buffer has less room than 4,096 bytes; SAM_NONE if no note is next, because bytes before it are not taken in yet, or because none
 * has come. */
SAM_MUST_USE sam_status sam_link_next_note(sam_link *link, uint8_t *into, size_t room, size_t *len);

/* ---- A link: readers ---- */

/* Hands out the state of the newest connection: enum sam_link_phase. */
SAM_MUST_USE sam_status sam_link_phase(sam_link *link, uint32_t *phase);

/* Hands out the number of the newest connection, or 0 before the first. At a host's end it is the newest that the end took. */
SAM_MUST_USE sam_status sam_link_attempt(sam_link *link, uint64_t *attempt);

/* Hands out the number of bytes of this side's stream, heads of packets included. */
SAM_MUST_USE sam_status sam_link_put_count(sam_link *link, uint64_t *count);

/* Hands out the number of bytes of this side's stream that the other side has acknowledged. The end keeps those after them in memory. All
 * bytes that were put by some time have come once this number is at least that of sam_link_put_count at that time. */
SAM_MUST_USE sam_status sam_link_acknowledged(sam_link *link, uint64_t *count);

/* Hands out the number of bytes of this side's stream that the newest connection has not been given. sam_link_take_out hands them out,
 * unless the other side's hello tells that they have come. */
SAM_MUST_USE sam_status sam_link_unsent(sam_link *link, size_t *count);

/* Hands out the number of bytes of the other side's stream that have come. */
SAM_MUST_USE sam_status sam_link_received(sam_link *link, uint64_t *count);

/* ==== A line ====
 *
 * A line is the terminal's end of a link with the clock of its connections: it decides when a connection is to be made, when the host is to
 * be asked, and when the connection is to be given up. It also finds the host's hello behind words that a login may print. It opens no
 * connection and has no clock: the program does as sam_line_tick says, moves the bytes, and hands in the time. A program calls either these
 * calls or those of a link. docs/howto/RECONNECTING.md has the loop:
 *
 *     sam_line_tick(&line, now, &tick)              SAM_TICK_CONNECT: the program opens a connection
 *     sam_line_connected(&line, now, &attempt)      it is open; or sam_line_not_connected, if it can't be made
 *     sam_line_take_out(&line, attempt, ..)         bytes for it: the hello first
 *     sam_line_receive(&line, attempt, .., now)     all bytes that came on it
 *     sam_line_take_in(&line, ..)                   the program's bytes among them, and sam_line_next_note the notes
 *     sam_line_ask(&line, now)                      asks whether all has come, if that is to be asked
 *     sam_line_expect(&line, waits, now)            the program waits for an answer, or for none
 *     sam_line_broken(&line, attempt, now)          the connection has ended
 *     sam_line_due_in(&line, now, &left)            for so long nothing is to be done, unless a call comes
 *
 * `now` is the time: milliseconds of any clock that doesn't jump, as of CLOCK_MONOTONIC. A time below the greatest that was handed in
 * counts as the greatest. A call that is refused has changed nothing but the time, unless its comment says more. Of these calls
 * sam_line_new, _put, _put_note, _ask, _acknowledge and _receive take memory, the others none. */

/* The work that sam_line_tick hands out. */
enum sam_tick {
    SAM_TICK_NOTHING = 0, /* nothing */
    SAM_TICK_CONNECT = 1, /* make a connection */
    SAM_TICK_DROP = 2,    /* close the connection, or end the attempt to make one: for the line it is over */
    SAM_TICK_ASK = 3      /* call sam_line_ask: nothing has come for 15 seconds, though an answer is due */
};

/* The state of a line. */
enum sam_line_state {
    SAM_LINE_DOWN = 0,       /* there is no connection; the next is tried when sam_line_due_in says */
    SAM_LINE_CONNECTING = 1, /* one is being made, or waits for the host's hello; it is given up after 30 seconds */
    SAM_LINE_OPEN = 2,       /* a host has welcomed the newest connection */
    SAM_LINE_LATE = 3,       /* it has, but nothing has come for long, though an answer is due */
    SAM_LINE_LOST = 4        /* the host has refused for good: no connection is tried any more */
};

/* What sam_line_describe hands out: the state, the counts and the times of a line. */
struct sam_line_details {
    uint64_t silence;       /* milliseconds for which nothing has come, though something was due */
    uint64_t round_trip;    /* milliseconds that the answer to the last question took; 0 before the first */
    uint64_t overdue_after; /* milliseconds of silence after which the user is to know that an answer is overdue */
    uint64_t failures;      /* connections that failed, one after another; 6 stands for more, too */
    uint64_t attempt;       /* the number of the newest connection; 0 before the first */
    uint64_t put_count;     /* bytes of this side's stream, heads of packets and questions included */
    uint64_t acknowledged;  /* of these the bytes that the host has acknowledged */
    uint64_t received;      /* bytes of the host's stream that have come */
    uint32_t state;         /* enum sam_line_state */
    uint32_t why;           /* in SAM_LINE_LOST the host's reason, of SAM_LINK_NOT_A_LINK to SAM_LINK_WRONG_COUNT; else SAM_OK */
    bool is_known;          /* a host has welcomed this line */
    bool is_broken;         /* there is no connection, though there was one, or one has failed */
    bool has_all;           /* the host has acknowledged all that was put */
};
typedef struct sam_line_details sam_line_details;

/* ---- A line: making and freeing ---- */

/* Makes a line, whose first connection is due at once. The id is the session's name: 16 bytes that the terminal chose at random. It is no
 * secret. With `take_over`, the session is to begin with the texts of another, as long as no host has welcomed this line. Refused, in this
 * order: SAM_NO_HANDLE if the handle is NULL; SAM_MADE if it is made already; SAM_NO_MEMORY. The handle is then as it was. */
SAM_MUST_USE sam_status sam_line_new(sam_line *line, const uint8_t id[SAM_LINK_ID_BYTES], bool take_over, uint64_t now);

/* Frees a line, with all the bytes that it keeps, and leaves the handle empty. Refused: SAM_NO_HANDLE if the handle is NULL or empty. */
sam_status sam_line_free(sam_line *line);

/* ---- A line: connections ---- */

/* Hands out what the program is to do at this time (enum sam_tick). What it hands out counts as begun: another call at the same time hands
 * out something else, so call it until it hands out SAM_TICK_NOTHING. */
SAM_MUST_USE sam_status sam_line_tick(sam_line *line, uint64_t now, uint32_t *tick);

/* Hands out the number of milliseconds until sam_line_tick has something to say, if no other call comes before. Returns SAM_NONE if it
 * never has. */
SAM_MUST_USE sam_status sam_line_due_in(sam_line *line, uint64_t now, uint64_t *left);

/* Takes a connection that the program has opened: the connection before is over. Hands out its number, counted from 1, which names it in
 * the calls below. Send the bytes of sam_line_take_out: its hello. Refused: SAM_COUNT_FULL after 2^64-1 connections. */
SAM_MUST_USE sam_status sam_line_connected(sam_line *line, uint64_t now, uint64_t *attempt);

/* Gives up the connection for which SAM_TICK_CONNECT asked, because it can't be made: another is tried after a pause. At any other time it
 * changes nothing. */
SAM_MUST_USE sam_status sam_line_not_connected(sam_line *line, uint64_t now);

/* Ends a connection, because it broke or because the program gives it up: another is tried after a pause, which grows from 0 over 1, 2, 4,
 * 8 and 16 to 30 seconds, and begins anew after a connection that stood for a second. Nothing changes if it isn't the newest, or is over
 * already. */
SAM_MUST_USE sam_status sam_line_broken(sam_line *line, uint64_t attempt, uint64_t now);

/* Doubts an open connection, because an address of the machine came or went: it is late, so call sam_line_ask, and if no byte comes it is
 * given up after 2 seconds. A connection that is to be made is tried after 1 second at most. */
SAM_MUST_USE sam_status sam_line_address_changed(sam_line *line, uint64_t now);

/* Notes whether the program waits for an answer of the host's program, as to a request: that holds over all connections, until another call
 * says otherwise. While the program waits an answer is due, though the host has acknowledged all that was put: if no byte comes for 15
 * seconds, the connection is late, so sam_line_ask asks, and if none comes for 15 more, it is given up. */
SAM_MUST_USE sam_status sam_line_expect(sam_line *line, bool expects, uint64_t now);

/* ---- A line: bytes and notes to send ---- */

/* Puts bytes for the host's program, all or none, with or without a connection: an answer is then due. Refused, in this order:
 * SAM_COUNT_FULL if the stream would have more than 2^64-1 bytes; SAM_NO_MEMORY. */
SAM_MUST_USE sam_status sam_line_put(sam_line *line, const uint8_t *bytes, size_t len, uint64_t now);

/* Puts a note behind all bytes that were put: it comes out after these bytes and before later ones. Refused, in this order:
 * SAM_LINK_TOO_LONG for more than 4,096 bytes; SAM_COUNT_FULL; SAM_NO_MEMORY. */
SAM_MUST_USE sam_status sam_line_put_note(sam_line *line, const uint8_t *bytes, size_t len, uint64_t now);

/* Asks the host whether all has come, if something that was put is not acknowledged, or the line is late; but not while such a question is
 * under way. So it may be called after each put and each piece. Refused, in this order: SAM_COUNT_FULL; SAM_NO_MEMORY. */
SAM_MUST_USE sam_status sam_line_ask(sam_line *line, uint64_t now);

/* Acknowledges all bytes that have come. The line does so by itself when it is asked, and after each 16,384 bytes. Refused, in this order:
 * SAM_COUNT_FULL; SAM_NO_MEMORY. */
SAM_MUST_USE sam_status sam_line_acknowledge(sam_line *line);

/* ---- A line: bytes out and in ---- */

/* Moves the next bytes for a connection into the buffer, as many as there are and fit, and hands out their number: first the hello, and
 * then the stream from the place where this connection goes on. Call it after each put, question and piece. Refused: SAM_LINK_NOT_OPEN if
 * the connection is over or isn't the newest. */
SAM_MUST_USE sam_status sam_line_take_out(sam_line *line, uint64_t attempt, uint8_t *into, size_t room, size_t *count);

/* Takes bytes that came on a connection, from its first one on, in pieces of any length, all or none. Refused, in this order:
 * SAM_LINK_NOT_OPEN if the connection is over or isn't the newest; SAM_LINK_TOO_MANY_ANSWERS if 65,536 bytes or more are kept that answer
 * the host; before the host's welcome SAM_LINK_TOO_MANY_WORDS, SAM_LINK_WRONG_HELLO, and the host's reason, if it refuses; then
 * SAM_COUNT_FULL, SAM_LINK_BAD_KIND, SAM_LINK_BAD_LENGTH and SAM_LINK_ACK_AHEAD, as sam_link_feed has them. After each of these but the
 * first the connection is over: close it. The line then tries another, or is lost: sam_line_describe says why. SAM_NO_MEMORY may come at
 * any place: the connection stays, and the same bytes are to be given again. Of these only the host's welcome may have been taken, as
 * is_known and the counts then say. */
SAM_MUST_USE sam_status sam_line_receive(sam_line *line, uint64_t attempt, const uint8_t *bytes, size_t len, uint64_t now);

/* Moves the next bytes of the host's program into the buffer, as many as one packet has left and fit, and hands out their number. Call it
 * until it hands out 0: then a note is next, or nothing. */
SAM_MUST_USE sam_status sam_line_take_in(sam_line *line, uint8_t *into, size_t room, size_t *count);

/* Moves the note that is next into the buffer, and hands out its length in bytes, which may be 0. Refused, in this order: SAM_LINK_NO_ROOM
 * if the buffer has less room than 4,096 bytes; SAM_NONE if no note is next, because bytes before it are not taken in yet, or because none
 * has come. */
SAM_MUST_USE sam_status sam_line_next_note(sam_line *line, uint8_t *into, size_t room, size_t *len);

/* ---- A line: readers ---- */

/* Hands out the state, the counts and the times of a line, in one call. */
SAM_MUST_USE sam_status sam_line_describe(sam_line *line, uint64_t now, sam_line_details *details);

/* Copies the words that came on the newest connection before the host's hello, perhaps of a login, as many bytes as fit, and hands out
 * their number. They are bytes, and need be no text. A room of 65,536 bytes is always enough while a connection stands. */
SAM_MUST_USE sam_status sam_line_words(sam_line *line, uint8_t *into, size_t room, size_t *len);

/* ==== A client ====
 *
 * Begin here for a front end whose user never waits, over connections that may break. A client is the user's side of a session in one
 * handle: an overlay, and its line to the host. It moves all between the two by itself: frames, edits that wait, notes, questions to the
 * host. It opens no connection and has no clock. The program is a loop round a call that sleeps, as poll does:
 *
 *     sam_client_tick(&client, now, &tick)              until SAM_TICK_NOTHING; SAM_TICK_CONNECT: the program opens a connection
 *     sam_client_connected(&client, now, &attempt)      it is open; or sam_client_not_connected, if it can't be made
 *     sam_client_receive(&client, attempt, .., now)     all bytes that came on it; sam_client_broken: it has ended
 *     sam_client_replace(&client, tag, ..)              the user typed: it is shown from now on, whatever is locked or broken
 *     sam_client_ask(&client, &event, ..)               the user asked for something else: a search, a command line
 *     sam_client_begin(&client, SAM_NOTE_OPEN, ..)      the host's program is asked for something: a file by its path, say
 *     sam_client_write(&client, tag, &task)             a file is to be written as it is shown now
 *     sam_client_see(&client, tag, start, end)          a window shows this much of a file: that is loaded first, and the rest by and by
 *     sam_client_next_event(&client, now, &kind, &did)  after any of these, until SAM_CLIENT_IDLE
 *     sam_client_next_splice(&client, &splice)          at SAM_CLIENT_STEPPED: each goes into the editor's own text, until SAM_NONE
 *     sam_client_note(&client, ..)                      at SAM_CLIENT_NOTE and SAM_CLIENT_ANSWERED: a message of the host's program
 *     sam_client_text(&client, 0, ..)                   at SAM_CLIENT_RAN: what a command line printed
 *     sam_client_take_out(&client, attempt, ..)         bytes for the connection, until it hands out 0
 *     sam_client_due_in(&client, now, &left)            the program may sleep so long, or until bytes or keys come
 *
 * The editor's own text is the shown text, if it takes each splice before it tells of an edit. Places count runes and gaps of the shown
 * text; a replacement makes no splice. A connection that breaks takes nothing of what the user did: it goes to the host over the next one.
 * What the client itself waits for it knows, so only a program that puts notes of its own needs sam_client_expect. Before it leaves, a
 * program looks at sam_client_has_all. `now` is the time, as for a line: milliseconds of any clock that doesn't jump. The structs and the
 * numbers are those of an overlay (sam_splice, sam_event), of a terminal (sam_did, sam_state, sam_file) and of a line (enum sam_tick,
 * sam_line_details). docs/howto/EMBEDDING.md has the loop. Of these calls sam_client_new, _receive, _acknowledge, _next_event, _step_edits,
 * _put_note, _replace, _replace_each, _ask, _drop_next, _begin, _write and _see take memory, the others none. */

/* What a client tells as it goes on. */
enum sam_client_event {
    SAM_CLIENT_IDLE = 0,       /* nothing moves until the host or the user does something, or the time comes */
    SAM_CLIENT_BUSY = 1,       /* 1,000 things moved that are not told, and more may: call again */
    SAM_CLIENT_STEPPED = 2,    /* a frame was received or an event acted, as sam_did says; the splices are to be taken */
    SAM_CLIENT_REFUSED = 3,    /* a request, or an edit, was refused: sam_did has its number and why */
    SAM_CLIENT_NOTE = 4,       /* a note came: sam_client_note copies it; all frames before it are received */
    SAM_CLIENT_ANSWERED = 5,   /* a note came, which sam_client_note copies: it answers the task that sam_did has */
    SAM_CLIENT_UNANSWERED = 6, /* the session is over, and no answer comes to the task that sam_did has */
    SAM_CLIENT_RAN = 7,        /* a command line has run: sam_did has its request, and where in the command file stands what it printed */
    SAM_CLIENT_LAPSED = 8,     /* the session is over, and the request that sam_did has never acts, or its command line has no answer */

    SAM_CLIENT_WIDTH = 0x7FFFFFFF /* never handed out: it keeps the type at 32 bits under any compiler's options */
};
typedef enum sam_client_event sam_client_event;

/* One of several replacements: the shown runes from the place `start` to the place `end` give way to the next `count` runes of a text. */
struct sam_replacement {
    uint32_t start;
    uint32_t end;
    uint32_t count;
};
typedef struct sam_replacement sam_replacement;

/* Room for the changes that many steps made, which the caller lends. The library counts what it puts there. */
struct sam_changes {
    sam_splice *splices;
    size_t most; /* how many splices there is room for */
    size_t got;
    uint32_t *runes; /* of each splice of SAM_SPLICE_CAME or SAM_SPLICE_FILLED its runes, one after another */
    size_t room;     /* how many runes there is room for */
    size_t used;
};
typedef struct sam_changes sam_changes;

/* ---- A client: making and freeing ---- */

/* Makes a client that knows no file, and whose first connection is due at once. The id is the session's name: 16 bytes that the terminal
 * chose at random. It is no secret. With `take_over`, the session is to begin with the texts of another, as long as no host has welcomed
 * this client. Then ask for SAM_EVENT_OFFER_VERSION, which names the host's files. Refused, in this order: SAM_NO_HANDLE if the handle is
 * NULL; SAM_MADE if it is made already; SAM_NO_MEMORY. The handle is then as it was. */
SAM_MUST_USE sam_status sam_client_new(sam_client *client, const uint8_t id[SAM_LINK_ID_BYTES], bool take_over, uint64_t now);

/* Frees a client, with what waits and with all the bytes that it keeps, and leaves the handle empty. Refused: SAM_NO_HANDLE if the handle
 * is NULL or empty. */
sam_status sam_client_free(sam_client *client);

/* ---- A client: connections ---- */

/* Hands out what the program is to do at this time (enum sam_tick). What it hands out counts as begun: another call at the same time hands
 * out something else, so call it until it hands out SAM_TICK_NOTHING. At SAM_TICK_ASK go on (sam_client_next_event): that asks the host. */
SAM_MUST_USE sam_status sam_client_tick(sam_client *client, uint64_t now, uint32_t *tick);

/* Hands out the number of milliseconds until sam_client_tick or sam_client_next_event has something to do, if no other call comes before.
 * Returns SAM_NONE if neither ever has. */
SAM_MUST_USE sam_status sam_client_due_in(sam_client *client, uint64_t now, uint64_t *left);

/* Takes a connection that the program has opened: the connection before is over. Hands out its number, counted from 1, which names it in
 * the calls below. Send the bytes of sam_client_take_out: its hello. Refused: SAM_COUNT_FULL after 2^64-1 connections. */
SAM_MUST_USE sam_status sam_client_connected(sam_client *client, uint64_t now, uint64_t *attempt);

/* Gives up the connection for which SAM_TICK_CONNECT asked, because it can't be made: another is tried after a pause. At any other time it
 * changes nothing. */
SAM_MUST_USE sam_status sam_client_not_connected(sam_client *client, uint64_t now);

/* Ends a connection, because it broke or because the program gives it up: another is tried after a pause, as by sam_line_broken. Nothing
 * changes if it isn't the newest, or is over already. */
SAM_MUST_USE sam_status sam_client_broken(sam_client *client, uint64_t attempt, uint64_t now);

/* Doubts an open connection, because an address of the machine came or went, as sam_line_address_changed does. Then go on: the host is
 * asked. */
SAM_MUST_USE sam_status sam_client_address_changed(sam_client *client, uint64_t now);

/* Notes whether the program waits for an answer to a note of its own: a host that doesn't answer is found out then, as by sam_line_expect.
 * While a task is open, an event is held or something is locked, the client waits in any case. */
SAM_MUST_USE sam_status sam_client_expect(sam_client *client, bool expects, uint64_t now);

/* Takes bytes that came on a connection, from its first one on, in pieces of any length, all or none. Then go on. Its refusals are those of
 * sam_line_receive, in its order. */
SAM_MUST_USE sam_status sam_client_receive(sam_client *client, uint64_t attempt, const uint8_t *bytes, size_t len, uint64_t now);

/* Moves the next bytes for a connection into the buffer, as many as there are and fit, and hands out their number: first the hello, and
 * then the stream from the place where this connection goes on. Go on before, so that all is there. Refused: SAM_LINK_NOT_OPEN if the
 * connection is over or isn't the newest. */
SAM_MUST_USE sam_status sam_client_take_out(sam_client *client, uint64_t attempt, uint8_t *into, size_t room, size_t *count);

/* Acknowledges all bytes that have come. The client does so by itself when it is asked, and after each 16,384 bytes. Refused, in this
 * order: SAM_COUNT_FULL; SAM_NO_MEMORY. */
SAM_MUST_USE sam_status sam_client_acknowledge(sam_client *client);

/* ---- A client: what is told ---- */

/* Goes on until there is something to tell, and hands out what (enum sam_client_event). Bytes of the host are received, requests and edits
 * that wait act once they can, and all that is composed goes into the line. Call it after each call that brought something, until it hands
 * out SAM_CLIENT_IDLE, and take all splices before each call. `did` is as sam_overlay_step hands it out at SAM_CLIENT_STEPPED, and has
 * `event`, `request`, `task` and `why` alone at SAM_CLIENT_REFUSED: which event it was, counted from 1 over all events that acted or were
 * refused, edits that were put among them, and SAM_REFUSAL... If a request acted or was refused, `request` is its number, as sam_client_ask
 * handed it out: each is told once, in their order, over all connections. Requests by which the client loads a text by itself have numbers,
 * too, which are told as they act or lapse, but not where they are refused. `task` is the task's number at SAM_CLIENT_ANSWERED, at
 * SAM_CLIENT_UNANSWERED, and where the write of sam_client_write is refused: each task ends once, by one of these. At SAM_CLIENT_RAN
 * `request` is the number of a command line (sam_client_run), `start` the place in the command file where stands what it printed, and
 * `came` how many runes of that are told; all of these are loaded. At SAM_CLIENT_LAPSED `request` is the number of one that was not told
 * before, or of a line whose end was not told. It comes once the session is over; and once the user has left, for a line of which not all
 * is loaded. The session is over, for this and for SAM_CLIENT_UNANSWERED, once a message has said so (SAM_NOTE_ENDED, SAM_NOTE_TAKEN_OVER)
 * or the host has refused the line for good. Else the fields are 0. Where nothing else moves, it asks for what is to be loaded next
 * (sam_client_see). Refused, in this order, and nothing is handed out then: SAM_WAITING if splices are left, and all is as it was. Else
 * some of what waited may be done, and nothing is lost: why the terminal has stopped, at this call or before, SAM_STREAM.. or
 * SAM_TERM_REFUSED..; SAM_COUNT_FULL; SAM_UNFINISHED if memory is short: call it again later. */
SAM_MUST_USE sam_status sam_client_next_event(sam_client *client, uint64_t now, sam_client_event *kind, sam_did *did);

/* Goes on as sam_client_next_event does, and over each step that is an edit: of the host's (Hgrowdata, Hcut), of runes that are loaded
 * (Hdata), or one of the user's that acted, which made no splice. Hands out their splices in their order, each with the runes that it
 * brought, SAM_GAP for one that is not loaded. It stops behind the first event that is none of these, and hands that out; its splices are
 * left for sam_client_next_splice. SAM_CLIENT_IDLE comes only if no step was made, else SAM_CLIENT_BUSY in its place. That comes, too,
 * after `most` steps, and where there is no room for a splice or for the 512 runes that a frame may bring. If the room ends in a step, it
 * hands out SAM_CLIENT_STEPPED and that step, and the rest of its splices is left, if there is more. It refuses as sam_client_next_event
 * does, in its order, and the counts say then what was handed out before; after SAM_NO_HANDLE they are as they were. */
SAM_MUST_USE sam_status sam_client_step_edits(sam_client *client, uint64_t now, sam_changes *changes, sam_client_event *kind, sam_did *did);

/* Hands out the next change of the shown text by the last step. Returns SAM_NONE if none is left. */
SAM_MUST_USE sam_status sam_client_next_splice(sam_client *client, sam_splice *splice);

/* Copies the note that was told last (SAM_CLIENT_NOTE, SAM_CLIENT_ANSWERED), and hands out its length in bytes, which may be 0. It stays
 * until the next one is told. Before the first it has 0 bytes. Refused: SAM_NO_ROOM if the buffer has less room than the note; a room of
 * 4,096 bytes is always enough. */
SAM_MUST_USE sam_status sam_client_note(sam_client *client, uint8_t *into, size_t room, size_t *len);

/* Puts a note for the host's program. It comes out behind the edits and events that have acted, and before those that wait. Refused, in
 * this order, and the note is not put then: SAM_LINK_TOO_LONG for more than 4,096 bytes; SAM_COUNT_FULL; SAM_NO_MEMORY. */
SAM_MUST_USE sam_status sam_client_put_note(sam_client *client, const uint8_t *bytes, size_t len, uint64_t now);

/* ---- A client: what the user does ---- */

/* Replaces the shown runes of a file from the place `start` to the place `end` by a text of any length, all or nothing. The new runes stand
 * behind what is shown before `start`. They are shown at once, whatever is locked, and go to the host as the client goes on; no request
 * that was asked for before finds them. Its refusals are those of sam_overlay_replace, in its order. */
SAM_MUST_USE sam_status sam_client_replace(sam_client *client, uint16_t tag, uint32_t start, uint32_t end, const uint8_t *text, size_t len);

/* Makes replacements of a file, one after another, each as sam_client_replace does: its places are those of the text that the ones before
 * it have left. So from the last place to the first, all are places of the text before. The text has the runes of all of them, in their
 * order. It stops in front of the first one that is refused, and *made counts those before. Refused, in this order, and none is made then:
 * SAM_NO_HANDLE, after which *made is as it was; SAM_NOT_TEXT if the text is not UTF-8; SAM_NO_MEMORY if there is no memory for its runes;
 * SAM_NOT_TEXT if it has more runes or fewer than the replacements take; SAM_WAITING if splices are left. Then come the refusals of
 * sam_client_replace for the first one that is refused. */
SAM_MUST_USE sam_status sam_client_replace_each(sam_client *client, uint16_t tag, const sam_replacement *replacements, size_t count,
                                                const uint8_t *text, size_t len, size_t *made);

/* Asks for what is no edit: an event of an overlay (enum sam_event_kind), with its text if it brings one. It stands in one order with the
 * edits: it acts as the client goes on, once all edits before it are put, and finds the text that is shown now, with the host's changes
 * since. A place that it names is one of that text, and moves with it as the host changes the text: what comes in at the place itself
 * stands behind it, and a range of which all goes is empty there. A place past the end of the text doesn't move: it is one of a text to
 * come, as of a file that is asked to be opened just before. Requests act in the order in which they were asked for. Hands out the number
 * of the request, counted from 1 over those that were taken: sam_client_next_event tells by it, once, that the request acted or was
 * refused; or that the session is over, and it lapsed. A write that would find the same text as one that waits is that one, and has its
 * number. Refused, in this order, and client and number are then as they were: SAM_NOT_TEXT if the text is not UTF-8; SAM_NO_MEMORY if
 * there is no memory for its runes; SAM_NONE if no event has this kind; SAM_COUNT_FULL if 2^64-1 requests were taken; SAM_WAITING while an
 * edit was put that has not acted: go on first; SAM_TOO_MANY if 1,000 requests wait; SAM_COUNT_FULL if 2^32-1 were taken while edits or
 * requests waited; SAM_NO_MEMORY. */
SAM_MUST_USE sam_status sam_client_ask(sam_client *client, const sam_event *event, const uint8_t *text, size_t len, uint64_t *number);

/* Takes back the next insertion that waits over a file, if an edit could act at once and the file has no room for this one, because the
 * host put more in meanwhile. Ask for it where the client is idle and edits wait over a free file. Copies its runes in UTF-8, all of them,
 * and hands out the number of bytes, and the splice by which they went of the shown text, as sam_overlay_drop_next does, with its
 * refusals. Places that requests name move, as there. */
SAM_MUST_USE sam_status sam_client_drop_next(sam_client *client, uint16_t tag, sam_splice *splice, uint8_t *into, size_t room, size_t *len);

/* ---- A client: what the host's program is to do ---- */

/* Has the host's program do something, and hands out the number of the task, counted from 1 over all tasks. The kind is SAM_NOTE_OPEN, to
 * join the file or the folder at a path; SAM_NOTE_COMPLETE, to tell the names that complete a path; or SAM_NOTE_RELOAD, to read the file of
 * a tag anew from its disk. The message goes behind all that acted, as a note does, and has the number as its request.
 * sam_client_next_event tells once that the answer came (SAM_CLIENT_ANSWERED), with that number: sam_client_note copies it. Refused, in
 * this order, and no task is begun then: SAM_NOTE_BAD_KIND for another kind; SAM_TOO_MANY if 1,000 tasks are open; SAM_COUNT_FULL after
 * 2^32-1 tasks; SAM_NO_MEMORY if there is no room for the task; SAM_NOTE_BAD_FIELD if the kind has no tag and the tag is not 0, or no path
 * and the path is not empty; SAM_NOTE_BAD_LENGTH if the message would have more than 4,096 bytes; SAM_NOTE_BAD_PATH if a byte of the path
 * is 0; SAM_COUNT_FULL, SAM_NO_MEMORY of the line. */
SAM_MUST_USE sam_status sam_client_begin(sam_client *client, uint32_t kind, uint16_t tag, const uint8_t *path, size_t len, uint64_t now,
                                         uint32_t *task);

/* Asks for a file to be written as it is shown now, as SAM_EVENT_WRITE does by sam_client_ask, and hands out the number of the task. Its
 * answer is SAM_NOTE_SAVED or SAM_NOTE_NOT_SAVED; if the write is refused, no answer comes, and `task` of sam_did has its number at
 * SAM_CLIENT_REFUSED. A write that would find the same text as one that waits is that task. Refused, in this order, and no task is begun
 * then: SAM_TOO_MANY if 1,000 tasks are open; SAM_COUNT_FULL after 2^32-1 tasks; SAM_NO_MEMORY if there is no room for the task; then as
 * sam_client_ask refuses a write, in its order: SAM_COUNT_FULL, SAM_WAITING, SAM_TOO_MANY, SAM_COUNT_FULL, SAM_NO_MEMORY. */
SAM_MUST_USE sam_status sam_client_write(sam_client *client, uint16_t tag, uint32_t *task);

/* Has the host run a command line on an open file, from the file's dot on, as it is shown now: behind all that was asked for before. Makes
 * the file the work file, opens the command file if it is not open, and types the line there in the place of its dot, between two newlines,
 * of which the first ends what may stand before it. Hands out the number of the request that types its last newline. SAM_CLIENT_STEPPED
 * tells by that number that the line begins; and SAM_CLIENT_RAN, once, that it has run, and where in the command file stands what it
 * printed: at most 65,536 runes of that, all loaded, which sam_client_text reads before the client goes on. Or SAM_CLIENT_REFUSED or
 * SAM_CLIENT_LAPSED tells that it doesn't run, or that its answer doesn't come. Its other requests have numbers, too, which nobody was
 * handed. What it printed is loaded once no request waits, so a request to leave that stands behind the line may come first. Where the
 * command file has 100,000 runes, and no other line is open, the line replaces them. Refused, in this order, and client and number are then
 * as they were: SAM_NOT_TEXT if the line is not UTF-8; SAM_NO_MEMORY if there is no memory for its runes; SAM_NOT_TEXT if it has a newline;
 * SAM_REFUSAL_NOT_OPEN if the file is not open, a SAM_EVENT_CLOSE of it waits, it is the command file, or the user has left
 * (SAM_EVENT_EXIT, or the line `q`); SAM_REFUSAL_TEXT_TOO_LONG if it has more than 400,000 runes; SAM_TOO_MANY if 1,000 lines are open, or
 * if more than 1,000 requests would wait, counting three of the line, and one for each 512 runes that it types. Refused, too, as
 * sam_client_ask refuses one of these requests, in its order (SAM_COUNT_FULL, SAM_WAITING, SAM_COUNT_FULL, SAM_NO_MEMORY): the number is
 * then as it was, and the line doesn't run, though its file may become the work file, and some of its runes may come to stand in the
 * command file. */
SAM_MUST_USE sam_status sam_client_run(sam_client *client, uint16_t tag, const uint8_t *line, size_t len, uint64_t *request);

/* Notes what a window shows of a file, from the place `start` to the place `end`, in the place of what it showed before. While nothing else
 * waits, the client loads that by itself, behind what command lines have printed, then what is behind it and the rest of the file, in
 * slices, but these only once nobody has pressed a key for a second (sam_client_rest). Of several files, the one that was told last is
 * first. Any tag and any place may be told, also before the file is open. Refused: SAM_NO_MEMORY, and all is as it was. */
SAM_MUST_USE sam_status sam_client_see(sam_client *client, uint16_t tag, uint32_t start, uint32_t end);

/* Leaves out a file that no window shows: the client loads no more of it by itself. */
SAM_MUST_USE sam_status sam_client_forget(sam_client *client, uint16_t tag);

/* Counts a key of the user that edits nothing, as one that moves the caret: for a second only what windows show is loaded, so what the key
 * asks for waits for no slice. A replacement counts by itself. */
SAM_MUST_USE sam_status sam_client_rest(sam_client *client, uint64_t now);

/* ---- A client: readers of the session ---- */

/* Hands out whether the host has all that the user did, and all notes: no edit and no request waits, no event is held, all is sent, and
 * the host's end of the link has acknowledged all. */
SAM_MUST_USE sam_status sam_client_has_all(sam_client *client, bool *has);

/* Hands out whether the shown text of a file may differ from the text that was written last: an edit waits over it, or sam_term_is_changed
 * says so. False for a tag without a file, and for tag 0. */
SAM_MUST_USE sam_status sam_client_is_unsaved(sam_client *client, uint16_t tag, bool *unsaved);

/* Hands out the number of requests that wait for edits or other requests before them, or for a lock of the command line; not one that the
 * terminal has and that has not acted. */
SAM_MUST_USE sam_status sam_client_requests(sam_client *client, size_t *count);

/* Hands out the state, the counts and the times of the line to the host, in one call, as sam_line_describe does. Its has_all speaks of the
 * line alone. */
SAM_MUST_USE sam_status sam_client_describe(sam_client *client, uint64_t now, sam_line_details *details);

/* Copies the words that came on the newest connection before the host's hello, as sam_line_words does. */
SAM_MUST_USE sam_status sam_client_words(sam_client *client, uint8_t *into, size_t room, size_t *len);

/* ---- A client: the terminal ---- */

/* Hands out the fields of sam_state at once, each as the reader sam_term_.. of its name does. */
SAM_MUST_USE sam_status sam_client_state(sam_client *client, sam_state *state);

/* Hands out the answers of several readers of one tag at once, as sam_overlay_file does. */
SAM_MUST_USE sam_status sam_client_file(sam_client *client, uint16_t tag, sam_file *file);

/* Copies the name of a known file in UTF-8, as many whole runes as fit, and hands out the number of bytes. A room of 256 bytes is always
 * enough. Returns SAM_NONE if the terminal knows no file of this tag. */
SAM_MUST_USE sam_status sam_client_name(sam_client *client, uint16_t tag, uint8_t *into, size_t room, size_t *len);

/* Hands out the file that the host's answer to SAM_EVENT_WORK or SAM_EVENT_NEW_FILE named last. It may be closed since. Returns SAM_NONE if
 * the host has named none yet. */
SAM_MUST_USE sam_status sam_client_current(sam_client *client, uint16_t *tag);

/* Copies the pattern that the host reported last, in UTF-8, as many whole runes as fit, and hands out the number of bytes. A room of 512
 * bytes is always enough. */
SAM_MUST_USE sam_status sam_client_pattern(sam_client *client, uint8_t *into, size_t room, size_t *len);

/* Copies the snarfed text that the host sent last (SAM_EVENT_GET_SNARF), from the place `place` on, in UTF-8, as many whole runes as fit.
 * Hands out the number of bytes and the number of runes. */
SAM_MUST_USE sam_status sam_client_snarfed(sam_client *client, uint32_t place, uint8_t *into, size_t room, size_t *bytes, uint32_t *runes);

/* Hands out the number of bytes of the host's stream before the frame that is wrong, as sam_term_fault_place does. */
SAM_MUST_USE sam_status sam_client_fault_place(sam_client *client, uint64_t *place);

/* ---- A client: shown texts of open files ---- */

/* Hands out the number of runes that wait over a file, as sam_overlay_waiting does. */
SAM_MUST_USE sam_status sam_client_waiting(sam_client *client, uint16_t tag, uint32_t *runes);

/* Hands out the first file from the tag `from` on over which an edit waits, as sam_overlay_next_waiting does. Returns SAM_NONE if there is
 * none. */
SAM_MUST_USE sam_status sam_client_next_waiting(sam_client *client, uint16_t from, uint16_t *tag);

/* Hands out the length of the shown text of an open file in runes, gaps counted. Returns SAM_NONE if the file is not open. */
SAM_MUST_USE sam_status sam_client_len(sam_client *client, uint16_t tag, uint32_t *runes);

/* Hands out the first place of the shown text of an open file, at or after `place`, whose rune is not loaded. Returns SAM_NONE if the file
 * is not open, or if all are loaded from there on: sam_client_len tells the two apart. */
SAM_MUST_USE sam_status sam_client_first_gap(sam_client *client, uint16_t tag, uint32_t place, uint32_t *gap);

/* Copies the shown runes of an open file from the place `place` on as numbers, as many as there are and fit, with SAM_GAP for each that is
 * not loaded. Hands out their number. The room counts runes. Returns SAM_NONE if the file is not open. */
SAM_MUST_USE sam_status sam_client_read(sam_client *client, uint16_t tag, uint32_t place, uint32_t *into, size_t room, uint32_t *count);

/* Copies the shown text of an open file from the place `place` on, up to the first rune that is not loaded, in UTF-8, as many whole runes
 * as fit, as sam_overlay_text does. Hands out the number of bytes and the number of runes. Returns SAM_NONE if the file is not open. */
SAM_MUST_USE sam_status sam_client_text(sam_client *client, uint16_t tag, uint32_t place, uint8_t *into, size_t room, size_t *bytes,
                                        uint32_t *runes);

/* ==== The messages of a session ====
 *
 * samhost and its front ends exchange these messages as the notes of a link: docs/reference/SESSION.md has the meaning of each. A message
 * has a kind and some of seven fields. Neither call takes a handle or memory. */

/* What follows is written by tools/session_messages, from the tables of docs/reference/SESSION.md. */
/* The kinds of messages, with their fields: up to 64 those from the terminal. */
enum sam_note_kind {
    SAM_NOTE_OPEN = 1,        /* request, path: joins the file, or the folder, at the path */
    SAM_NOTE_COMPLETE = 2,    /* request, path: asks for the names that complete the path */
    SAM_NOTE_RELOAD = 3,      /* request, tag: reads a file anew from its disk */
    SAM_NOTE_RELOADED = 4,    /* tag, number: the user's edits have made the file what the file `number` has */
    SAM_NOTE_WRITE = 5,       /* request, tag: asks what becomes of the Twrite of this file that comes next */
    SAM_NOTE_SESSION = 65,    /* number, path, text: the first message: version of the messages, name of the session, machine */
    SAM_NOTE_SAID = 66,       /* text: words for people */
    SAM_NOTE_SHOWN = 67,      /* tag, number: another program wants the file shown at the line `number`, if not 0 */
    SAM_NOTE_TAKEN_OVER = 68, /* text: another terminal, at the machine that the text names, has the session now */
    SAM_NOTE_ENDED = 69,      /* code, number: the session is over, with this exit status: the last message */
    SAM_NOTE_OPENED = 70,     /* request, tag: the file of an Open */
    SAM_NOTE_REFUSED = 71,    /* request, code, text: what was asked for is not done, and why */
    SAM_NOTE_NAMES = 72,      /* request, code, path: names, each with a newline behind it; those of folders end in `/` */
    SAM_NOTE_ANEW = 73,       /* request, number: the file of the tag `number` is hidden; that of an answer has what stands on the disk */
    SAM_NOTE_SAVED = 74,      /* request, tag, code, path, copy, text: a write went to the disk, at the path */
    SAM_NOTE_NOT_SAVED = 75,  /* request, tag, code, path, copy, text: a write failed, and why; its text is in the copy, if not empty */
    SAM_NOTE_CHANGED = 76,    /* tag, code, path, text: another program changed the file, or removed it */
    SAM_NOTE_DATED = 77,      /* tag, number, path: the file was written last at this time, in seconds since 1970 */
    SAM_NOTE_EARLIER = 78,    /* tag, code, number, path, copy, text: an earlier session left a text in the copy, of the time `number` */
    SAM_NOTE_ASIDE = 79,      /* tag, code, path, copy, text: a text that is on no disk under its name is in the copy */
    SAM_NOTE_LOST = 80,       /* tag, code, path, text: a text could be saved nowhere, and why */
    SAM_NOTE_NO_JOURNAL = 81, /* code, text: what is done from now on survives no crash, and why */
};

/* What happened, or why. A number that isn't here comes from a later version, and counts as SAM_NOTE_OTHER. */
enum sam_note_code {
    SAM_NOTE_NO_CODE = 0,         /* nothing to say */
    SAM_NOTE_NO_SPACE = 1,        /* the disk is full */
    SAM_NOTE_NO_PERMISSION = 2,   /* the system allows it not */
    SAM_NOTE_READ_ONLY = 3,       /* it can only be read */
    SAM_NOTE_NOT_FOUND = 4,       /* it is not there */
    SAM_NOTE_IS_FOLDER = 5,       /* it is a folder */
    SAM_NOTE_NOT_TEXT = 6,        /* it is no UTF-8, or has a zero byte */
    SAM_NOTE_TOO_LONG = 7,        /* it has too many characters */
    SAM_NOTE_TOO_MANY = 8,        /* there are too many files */
    SAM_NOTE_NO_MEMORY = 9,       /* out of memory */
    SAM_NOTE_NO_NAME = 10,        /* the file has no name */
    SAM_NOTE_CHANGED_SINCE = 11,  /* another program changed the file; the next write replaces it, and keeps what it has */
    SAM_NOTE_EXISTS_ALREADY = 12, /* it is there, and this session hasn't read it; the next write replaces it, and keeps what it has */
    SAM_NOTE_TAKEN_UNSAVED = 13,  /* it was not written before this terminal took the session over */
    SAM_NOTE_NO_SUCH_FILE = 14,   /* no file has this tag */
    SAM_NOTE_OTHER = 15,          /* the text says what */
    SAM_NOTE_HAS_MORE = 16,       /* there are more */
    SAM_NOTE_REPLACED = 17,       /* what another program had written there is in the copy */
    SAM_NOTE_BROKEN = 18,         /* a write broke off, and what the file was is in the copy */
    SAM_NOTE_NEWER = 19,          /* the copy is newer than the file */
    SAM_NOTE_OLDER = 20,          /* the copy is older than the file */
    SAM_NOTE_CUT = 21,            /* of what was cut last */
    SAM_NOTE_UNNAMED = 22,        /* of a file without a name */
    SAM_NOTE_FAILED = 23,         /* the disk failed */
    SAM_NOTE_UNREADABLE = 24,     /* it can't be read, so another program may have changed it; the next write replaces it, and keeps what it has */
};
/* Up to here by tools/session_messages. */

/* A message. A field that its kind has not is 0 or empty. */
struct sam_note {
    uint8_t kind;     /* enum sam_note_kind */
    uint8_t code;     /* enum sam_note_code, or a number of a later version */
    uint16_t tag;     /* of a file */
    uint32_t request; /* the number that the terminal gave a request; 0: no request asked for this */
    uint64_t number;  /* a version, a line, a time, another tag or a status, as the kind says */
    size_t path_at;   /* the place of a path in the bytes that were read, and its number of bytes */
    size_t path_len;
    size_t copy_at; /* the same of a second path */
    size_t copy_len;
    size_t text_at; /* the same of words for people, in UTF-8 */
    size_t text_len;
};
typedef struct sam_note sam_note;

/* Reads the message that bytes spell, all of them. Refused, in this order, and the note is then as it was: SAM_NOTE_BAD_KIND (skip such a
 * message: it comes from a later version); SAM_NOTE_BAD_LENGTH if there is no byte, if there are too few or too many for the fields of the
 * kind, or more than 4,096; SAM_NOTE_BAD_PATH; SAM_NOTE_BAD_TEXT. */
SAM_MUST_USE sam_status sam_note_read(const uint8_t *bytes, size_t len, sam_note *note);

/* Writes the bytes of a message into the buffer, at most SAM_LINK_MOST_NOTE, and hands out how many. The bytes of path, copy and text are
 * read from these pointers, by the lengths in the note; where they stood is not read. Refused, in this order, and what `into` and `len`
 * lead to is then as it was: SAM_NOTE_BAD_KIND; SAM_NOTE_BAD_FIELD; SAM_NOTE_BAD_LENGTH for more than 4,096 bytes, or more than there is
 * room for; SAM_NOTE_BAD_PATH; SAM_NOTE_BAD_TEXT. */
SAM_MUST_USE sam_status sam_note_write(const sam_note *note, const uint8_t *path, const uint8_t *copy, const uint8_t *text, uint8_t *into,
                                       size_t room, size_t *len);

/* ==== A journal ====
 *
 * A journal is a file that only grows, so that what a program did is found again after a crash. It is a head and records, and a record is
 * bytes of the program's. The calls have no handle, take no memory, and read and write no file: the program lends them bytes.
 *
 *     sam_journal_head(random, head)                  a new file begins with this
 *     sam_journal_frame(random, n, durable, ..)       the n-th record: frame.front, its body, frame.back
 *     sam_journal_read(bytes, len, ..)                after a crash: how many whole records, and where they end
 *     sam_journal_next(bytes, len, 24, random, 0, ..) the first of them, and so on
 *
 * Each record says how many bytes of the file were durable when it was made: written, and then made safe by fdatasync or its like. A crash
 * may lose or turn what was not durable, in any order of its blocks. So the file is damaged if its whole records end before a place up to
 * which a whole record, anywhere in it, says that it was durable; else all behind them is torn, and is cut before the next record is
 * written. The random number of a file, which its sums are of too, is chosen anew for each: what is left on the disk of an older one is no
 * record. */

#define SAM_JOURNAL_HEAD_BYTES 24 /* bytes of the head: the first record stands there */
#define SAM_RECORD_FRONT_BYTES 24 /* bytes of a record before its body */
#define SAM_RECORD_BACK_BYTES 4   /* bytes of a record behind its body */

/* What stands around the body of a record. */
struct sam_record_frame {
    uint8_t front[SAM_RECORD_FRONT_BYTES]; /* the bytes before it */
    uint8_t back[SAM_RECORD_BACK_BYTES];   /* the bytes behind it */
};
typedef struct sam_record_frame sam_record_frame;

/* A whole record of a file. */
struct sam_record {
    uint64_t durable; /* how many bytes of the file were durable when it was made */
    size_t body;      /* the place of its body in the file, in bytes from 0 */
    size_t len;       /* how many bytes its body has */
    size_t next;      /* the place behind the record, where the next one stands */
};
typedef struct sam_record sam_record;

/* Writes the head of the file of this random number. Returns SAM_OK. */
SAM_MUST_USE sam_status sam_journal_head(uint64_t random, uint8_t into[SAM_JOURNAL_HEAD_BYTES]);

/* Hands out what stands around a body in the file of this random number: in the record of this number, counted from 0, that is made when so
 * many bytes of the file are durable. They may be no more than stand before the record, or it is not read again. Refused:
 * SAM_JOURNAL_TOO_LONG. */
SAM_MUST_USE sam_status sam_journal_frame(uint64_t random, uint64_t number, uint64_t durable, const uint8_t *body, size_t len,
                                          sam_record_frame *frame);

/* Reads a whole file: hands out its random number, how many whole records it has from the front on, and the place in bytes at which they
 * end. SAM_JOURNAL_DAMAGED hands out the same of what stands before the damage. Refused, in this order: SAM_JOURNAL_SHORT,
 * SAM_JOURNAL_NOT_A_JOURNAL, SAM_JOURNAL_OTHER_VERSION, SAM_JOURNAL_DAMAGED_HEAD. */
SAM_MUST_USE sam_status sam_journal_read(const uint8_t *bytes, size_t len, uint64_t *random, uint64_t *count, size_t *end);

/* Hands out the record of this number that stands at this place of a file. Its random number is what sam_journal_read hands out. SAM_NONE
 * if the file ends there. Refused: SAM_JOURNAL_TORN. */
SAM_MUST_USE sam_status sam_journal_next(const uint8_t *bytes, size_t len, size_t place, uint64_t random, uint64_t number,
                                         sam_record *found);

/* ==== A durable server ====
 *
 * A durable server is a host with its end of a link that outlives a crash. It makes a record of each thing that it takes: of files,
 * connections, pieces that a connection brought, messages and endings. The program writes the records to a journal, in order, and tells how
 * many are durable. Nothing that a record decides goes out before that record is durable. So the terminal never learns of anything that a
 * crash undoes. After a crash a recovery makes the server again of the durable records, and the terminal connects again as after any broken
 * connection. The server opens no file and no connection, and knows no clock: the program carries all bytes.
 *
 *     sam_server_accept(&server, hello, 42)            the first 42 bytes of a new connection
 *     sam_server_receive(&server, attempt, ..)         the bytes that it brings behind them
 *     sam_server_next_record(&server, ..)              into the journal, until SAM_NONE
 *     sam_server_durable(&server, count)               so many more of the records are safe: after fdatasync, say
 *     sam_server_take_out(&server, attempt, ..)        bytes for the connection
 *     sam_server_next_effect(&server, &effect)         what the program is asked to do: write a file, hear a message, or keep a text
 *     sam_server_effect_done(&server, ending)          it is done, and the server goes on behind it
 *
 * After a crash, of the records of the journal, from the oldest on:
 *
 *     sam_recovery_new(&recovery, id)
 *     sam_recovery_take(&recovery, body, len)          each record
 *     sam_recovery_finish(&recovery, &server)          the server goes on
 *
 * The terminal's side is a link or a line: sam_link_.., sam_line_... Places of texts, tags and names are those of sam_host_... A journal
 * may be one of sam_journal_.., whose records have these bodies.
 *
 * Statuses of a call that takes something come in this order: SAM_NO_HANDLE; SAM_STREAM.., SAM_HOST_REFUSED.. or SAM_SERVER_COUNT_FULL if
 * the server has stopped before; SAM_WAITING if earlier work is left; SAM_NO_MEMORY; the call's own refusals. Nothing is taken then, and no
 * record is made. Behind them, once it is taken, come SAM_UNFINISHED if memory is short, and why the server stops. Until sam_server_go_on
 * has returned SAM_OK after SAM_UNFINISHED, no other call takes anything, nothing goes out, and the record of what was taken is not handed
 * out. Of these calls those that can return SAM_NO_MEMORY or SAM_UNFINISHED take memory, the others none. */

/* The kinds of effects. */
enum sam_effect_kind {
    SAM_EFFECT_WRITE = 1, /* the saved text of the file `tag` is to be written (Twrite): sam_server_saved */
    SAM_EFFECT_HEAR = 2,  /* the terminal's program said a message of `len` bytes: sam_server_heard */
    /* The terminal closed a file that was dirty (Tclose). No file has the tag `tag` any more, and none gets it again. What it held last is
     * still to be had, for a program that keeps a copy: sam_server_closed_name, and sam_server_closed_text of `len` bytes. */
    SAM_EFFECT_CLOSE = 3,

    SAM_EFFECT_WIDTH = 0x7FFFFFFF /* never handed out: it keeps the type at 32 bits under any compiler's options */
};
typedef enum sam_effect_kind sam_effect_kind;

/* What the program is asked to do. What a kind doesn't say is 0. */
struct sam_effect {
    size_t len; /* how many bytes the message has, or the text of the file that was closed */
    sam_effect_kind kind;
    uint16_t tag; /* the file */
};
typedef struct sam_effect sam_effect;

/* ---- A durable server: making and freeing ---- */

/* Makes the server of a session without files (but the command file), before its first connection. The id is the session's name, as for
 * sam_link_new. Refused, in this order: SAM_NO_HANDLE if the handle is NULL; SAM_MADE if it is made already; SAM_NO_MEMORY. The handle is
 * then as it was. */
SAM_MUST_USE sam_status sam_server_new(sam_server *server, const uint8_t id[SAM_LINK_ID_BYTES]);

/* Frees a server, with all that it keeps, and leaves the handle empty. Refused: SAM_NO_HANDLE if the handle is NULL or empty. */
sam_status sam_server_free(sam_server *server);

/* ---- A durable server: what it takes ---- */

/* Adds a file as sam_host_add_file does, and hands out its tag. Its own refusals: SAM_NOT_TEXT, SAM_ADD_TOO_LONG, SAM_ADD_NO_TAG. After
 * SAM_UNFINISHED the file has joined under the next tag, which is not handed out. */
SAM_MUST_USE sam_status sam_server_add_file(sam_server *server, const uint8_t *name, size_t name_len, const uint8_t *text, size_t text_len,
                                            uint16_t *tag);

/* Takes a connection by its first 42 bytes, the terminal's hello: the connection before is over. The connection has the number that
 * sam_link_read_hello hands out. Before all but SAM_NO_HANDLE it may return what sam_link_read_hello refuses, and SAM_NONE for fewer than
 * 42 bytes. Its own refusals are those of sam_link_answer: SAM_LINK_BAD_HELLO to SAM_LINK_WRONG_COUNT. sam_link_write_refusal writes what
 * the terminal is told then. */
SAM_MUST_USE sam_status sam_server_accept(sam_server *server, const uint8_t *bytes, size_t len);

/* Takes bytes that came on a connection after the hello, in pieces of any length, all or none, and answers each message that is whole. Its
 * own refusals are those of sam_link_feed but SAM_NO_MEMORY; the last three of them end the connection. */
SAM_MUST_USE sam_status sam_server_receive(sam_server *server, uint64_t attempt, const uint8_t *bytes, size_t len);

/* Ends a connection, because it broke or because the program gives it up. Nothing changes if it isn't the newest. It makes no record. */
SAM_MUST_USE sam_status sam_server_broken(sam_server *server, uint64_t attempt);

/* Puts a message for the terminal's program: a note of the link, behind all bytes that were put. Its own refusals: SAM_LINK_TOO_LONG for
 * more than 4,096 bytes; SAM_COUNT_FULL. */
SAM_MUST_USE sam_status sam_server_say(sam_server *server, const uint8_t *bytes, size_t len);

/* Marks a file as dirty as sam_host_mark_dirty does: after a write that failed, before sam_server_effect_done. Its own refusals: SAM_NONE
 * if the tag has no file; SAM_MARK_COMMAND_FILE; SAM_MARK_NOT_ANNOUNCED. */
SAM_MUST_USE sam_status sam_server_mark_dirty(sam_server *server, uint16_t tag);

/* Asks the terminal to acknowledge now, as sam_link_ask does. Its own refusal: SAM_COUNT_FULL. */
SAM_MUST_USE sam_status sam_server_ask(sam_server *server);

/* Acknowledges all bytes that have come, as sam_link_acknowledge does. Its own refusal: SAM_COUNT_FULL. */
SAM_MUST_USE sam_status sam_server_acknowledge(sam_server *server);

/* Goes on with what was taken last, after SAM_UNFINISHED; does nothing if no work is left. Refused, in this order: why the server has
 * stopped, at this call or before; SAM_UNFINISHED if memory is still short. */
SAM_MUST_USE sam_status sam_server_go_on(sam_server *server);

/* ---- A durable server: records ---- */

/* Hands out the number of bytes of the record that sam_server_next_record hands out next. Returns SAM_NONE if there is none. */
SAM_MUST_USE sam_status sam_server_record_len(sam_server *server, size_t *len);

/* Hands out the oldest record that was not handed out: copies its bytes, all of them or none, and hands out their number. The record of a
 * piece has 9 bytes more than the piece, no record of a message more than 4,097, and that of a file 9 more than its name and its text.
 * Refused, in this order, and nothing is changed then: SAM_NONE if there is none; SAM_NO_ROOM if it doesn't fit. */
SAM_MUST_USE sam_status sam_server_next_record(sam_server *server, uint8_t *into, size_t room, size_t *len);

/* Takes so many more of the records that were handed out as durable, the oldest first. */
SAM_MUST_USE sam_status sam_server_durable(sam_server *server, size_t count);

/* ---- A durable server: bytes out ---- */

/* Moves the next bytes for a connection into the buffer, as many as durable records decide and fit, and hands out their number: first the
 * hello, and then the stream from the place where this connection goes on. Refused: SAM_LINK_NOT_OPEN if the connection is over or isn't
 * the newest. */
SAM_MUST_USE sam_status sam_server_take_out(sam_server *server, uint64_t attempt, uint8_t *into, size_t room, size_t *count);

/* ---- A durable server: effects ---- */

/* Hands out the effect that is to be done now, the same until sam_server_effect_done. What the terminal sent behind it waits for that: do
 * it soon. After a crash an effect is handed out again, unless the record of its end is durable. Returns SAM_NONE if there is none, or
 * while the record that has it is not durable. */
SAM_MUST_USE sam_status sam_server_next_effect(sam_server *server, sam_effect *effect);

/* Copies the message that is to be heard now, all of it or nothing, and hands out its length in bytes. A room of 4,096 bytes is always
 * enough. Refused, in this order: SAM_NONE if sam_server_next_effect hands out no message; SAM_NO_ROOM if it doesn't fit. */
SAM_MUST_USE sam_status sam_server_heard(sam_server *server, uint8_t *into, size_t room, size_t *len);

/* Copies the name of the file that was closed, in UTF-8, all of it or nothing, and hands out its length in bytes. A room of
 * SAM_MOST_NAME_BYTES is always enough. Refused, in this order: SAM_NONE if sam_server_next_effect hands out no file that was closed;
 * SAM_NO_ROOM if it doesn't fit. */
SAM_MUST_USE sam_status sam_server_closed_name(sam_server *server, uint8_t *into, size_t room, size_t *len);

/* Copies the text that the file had as it was closed, in UTF-8, all of it or nothing, and hands out its length in bytes. Refused as
 * sam_server_closed_name is. */
SAM_MUST_USE sam_status sam_server_closed_text(sam_server *server, uint8_t *into, size_t room, size_t *len);

/* Ends the effect, which is done. `ending` is a number of the program's own for how it ended, which stands in the record. Its own refusal:
 * SAM_NONE if sam_server_next_effect hands out none. */
SAM_MUST_USE sam_status sam_server_effect_done(sam_server *server, uint64_t ending);

/* ---- A durable server: readers of its host ---- */

/* Hands out whether the session is over: the terminal has sent Texit, or a command line was `q`. */
SAM_MUST_USE sam_status sam_server_is_done(sam_server *server, bool *done);

/* Hands out the number of tags that were given, the command file's 0 included: the greatest tag is one less. */
SAM_MUST_USE sam_status sam_server_tags(sam_server *server, size_t *count);

/* Hands out whether the tag has a file now. The tag of a closed file has none. */
SAM_MUST_USE sam_status sam_server_has_file(sam_server *server, uint16_t tag, bool *has);

/* Copies the name of a file, as sam_host_name does. Returns SAM_NONE if the tag has no file. */
SAM_MUST_USE sam_status sam_server_name(sam_server *server, uint16_t tag, uint8_t *into, size_t room, size_t *len);

/* Hands out the length of a file's text in runes. Returns SAM_NONE if the tag has no file. */
SAM_MUST_USE sam_status sam_server_len(sam_server *server, uint16_t tag, uint32_t *runes);

/* Hands out whether a file was edited since it was made or written. Returns SAM_NONE if the tag has no file. */
SAM_MUST_USE sam_status sam_server_is_dirty(sam_server *server, uint16_t tag, bool *dirty);

/* Copies the text of a file from the place `place` on, as sam_host_text does. Returns SAM_NONE if the tag has no file. */
SAM_MUST_USE sam_status sam_server_text(sam_server *server, uint16_t tag, uint32_t place, uint8_t *into, size_t room, size_t *bytes,
                                        uint32_t *runes);

/* Hands out the length in runes of the text that a file had when the terminal had it written last. Returns SAM_NONE if the tag has no file,
 * or if the file was never written. */
SAM_MUST_USE sam_status sam_server_saved_len(sam_server *server, uint16_t tag, uint32_t *runes);

/* Copies the text that a file had when the terminal had it written last, from the place `place` on, as sam_host_text does. Returns SAM_NONE
 * if the tag has no file, or if the file was never written. */
SAM_MUST_USE sam_status sam_server_saved(sam_server *server, uint16_t tag, uint32_t place, uint8_t *into, size_t room, size_t *bytes,
                                         uint32_t *runes);

/* Hands out whether the terminal has opened the file. Returns SAM_NONE if the tag has no file. */
SAM_MUST_USE sam_status sam_server_is_open(sam_server *server, uint16_t tag, bool *open);

/* Hands out the length of the snarf buffer in runes. */
SAM_MUST_USE sam_status sam_server_snarf_len(sam_server *server, uint32_t *runes);

/* Copies the snarf buffer from the place `place` on, as sam_host_snarf does. */
SAM_MUST_USE sam_status sam_server_snarf(sam_server *server, uint32_t place, uint8_t *into, size_t room, size_t *bytes, uint32_t *runes);

/* ---- A durable server: readers of its link ---- */

/* Hands out the number of the newest connection, or 0 before the first. */
SAM_MUST_USE sam_status sam_server_attempt(sam_server *server, uint64_t *attempt);

/* Hands out the number of bytes that were put for the terminal, heads of packets included, also of those whose records are not durable. */
SAM_MUST_USE sam_status sam_server_put_count(sam_server *server, uint64_t *count);

/* Hands out the number of these bytes that the terminal has acknowledged. A program that is about to end says its last message, and waits
 * until this number is that of sam_server_put_count. */
SAM_MUST_USE sam_status sam_server_acknowledged(sam_server *server, uint64_t *count);

/* Hands out the number of bytes of the terminal's stream that have come. */
SAM_MUST_USE sam_status sam_server_received(sam_server *server, uint64_t *count);

/* ---- A durable server: made again of its records ---- */

/* Begins with the server of a session that has taken nothing. The id is that of the session whose records they are. Refused, in this order:
 * SAM_NO_HANDLE if the handle is NULL; SAM_MADE if it is made already; SAM_NO_MEMORY. The handle is then as it was. */
SAM_MUST_USE sam_status sam_recovery_new(sam_recovery *recovery, const uint8_t id[SAM_LINK_ID_BYTES]);

/* Frees a recovery, and leaves the handle empty. Refused: SAM_NO_HANDLE if the handle is NULL or empty. */
sam_status sam_recovery_free(sam_recovery *recovery);

/* Takes the next record of the journal again: its body, as sam_server_next_record handed it out. Refused, in this order, and the handle is
 * then empty, so begin anew: SAM_SERVER_NO_RECORD; then SAM_SERVER_NOT_TAKEN or SAM_NO_MEMORY, whichever shows first. */
SAM_MUST_USE sam_status sam_recovery_take(sam_recovery *recovery, const uint8_t *body, size_t len);

/* Makes the server that goes on behind all these records, and leaves the recovery's handle empty. The server's connection is over, and its
 * records count as durable, so have the journal synced before: an effect that waits is to be done now. Refused, in this order, and both
 * handles are then as they were: SAM_NO_HANDLE if one of them is NULL, or the recovery's is empty; SAM_MADE if the server's is made
 * already; SAM_NO_MEMORY. */
SAM_MUST_USE sam_status sam_recovery_finish(sam_recovery *recovery, sam_server *server);

/* ---- A durable server: another terminal takes over ---- */

/* Makes in an empty handle, which is not that of this server, a server of another session that begins with the texts of this one, for a
 * terminal that takes them over. All files but the command file join it with the names and the texts that they have, in the order of their
 * tags: from tag 1 on, with no gap. Each makes a record, and these begin a journal of its own. So the texts are taken over once that
 * journal has the name of the old one. This server is as it was, and can go on until then. Which files are dirty, what was written last,
 * selections and the command file stay behind: mark a file as dirty once the terminal has its name.
 *
 * Refused, in this order, and both handles are then as they were: SAM_NO_HANDLE if one of them is NULL, or this server's is empty; SAM_MADE
 * if the other is made already; SAM_WAITING if earlier work is left, for sam_server_go_on; SAM_SERVER_EFFECT_WAITS if an effect is not
 * done, also one that is not handed out yet; SAM_NO_MEMORY. A server that has stopped hands its texts on, too. */
SAM_MUST_USE sam_status sam_server_heir(sam_server *server, const uint8_t id[SAM_LINK_ID_BYTES], sam_server *heir);

/* ==== Scripts ==== */

/* Runs a script over a host and a terminal of its own, and hands out the output of its `show` lines, in bytes. It takes no handle.
 * docs/reference/SCRIPTS.md explains the language. All lines are read before the first is done.
 *
 * At SAM_OK *out_len is the number of all bytes that are printed, and the first of them stand in `out`, as many as fit. The rest of the
 * buffer is as it was. If *out_len is above out_room, call again with so much room, because a script prints the same each time.
 *
 * Refused: SAM_SCRIPT_LINE if a line is wrong; *line, counted from 1, is the first of these. If no line is wrong, the first that can't be
 * done decides: SAM_SCRIPT_LINE reports a `host` or `term` at which nothing is there to take, SAM_SCRIPT_COUNT_FULL a line that would count
 * more than 2^64-1 messages. SAM_NO_MEMORY may come at any line. The results are then as they were, but for *line at SAM_SCRIPT_LINE. */
SAM_MUST_USE sam_status sam_replay(const uint8_t *script, size_t script_len, uint8_t *out, size_t out_room, size_t *out_len, size_t *line);

#ifdef __cplusplus
}
#endif
#endif
