/* session.h: the files of a session, from its begin to its end. */
#ifndef SAMHOST_SESSION_SESSION_H
#define SAMHOST_SESSION_SESSION_H

#include <stdbool.h>
#include <stddef.h>
#include <stdint.h>
#include <sys/types.h>

#include "disk/autosave.h"
#include "disk/file_watcher.h"
#include "disk/file_writer.h"
#include "disk/paths.h"
#include "journal/journal.h"
#include "limits.h"
#include "net/handshake.h"
#include "session/ending.h"
#include "session/messages.h"
#include "session/session_directory.h"
#include "sulgrevad.h"

/* What a file of the session is for. All but the user's are hidden: the terminal is told which these are, so that it lists none of them;
 * they are not watched, not saved aside, and not handed on to another terminal. */
enum purpose {
    FOR_USER,
    LEFT_OVER, /* it is what an earlier session saved aside, which goes where it is written empty */
    READ_ANEW  /* what stood on the disk, for the terminal to put in the place of a file's text */
};

/* The names of hidden files, or what they begin with. A user's file may have them, too. */
#define NAME_LEFT_OVER "~~left~~"
#define NAME_READ_ANEW "~~anew~~ " /* the tag of the old one follows */

/* What a document has read from a file or written to it last, or found there when it refused to write. */
struct known {
    struct known *next;
    char *path; /* with no symbolic link at its end */
    struct content content;
    dev_t disk;     /* of its folder then; 0 where that isn't known */
    bool is_theirs; /* another program's, found when it refused to write: what is written in its place keeps it beside the file */
};

/* The tag of the command file, of which no text is saved. Its document is of what was cut last, if that stands nowhere else. */
enum { THE_CUT = 0 };

/* What the host of the library doesn't know of a file. */
struct document {
    char *path;  /* where it was read; NULL for a file that the terminal made */
    char *shown; /* its name in the session, the end of a long path */
    struct known *known;
    struct copy aside;
    struct text held; /* of a file that is closed: its text, which could not be saved; else without bytes */
    bool is_unmarked; /* its text is on no disk, and the host takes it for written until it is marked as dirty */
    bool is_taken;    /* the terminal was told that it is not written, when it took the session over */
    bool is_reported; /* it was said that its text can't be saved */
    enum purpose purpose;
    bool is_reloaded; /* its text was read anew, and the next write may find it in its file */
    struct watch watch;
    struct message *answer; /* of its next write, where the terminal has asked for that; else NULL */
};

/* Bytes between a connection and the link. */
struct piece {
    size_t sent, len;
    uint8_t bytes[PIECE];
};

/* A session. Times are those of now(). */
struct session {
    sam_server *server;
    struct document *documents; /* ALL_TAGS of them */
    struct text text, cut;      /* room for one text (MOST_BYTES), and for what was cut last */
    bool is_met;        /* a terminal has said more than its first words, so it has heard something; or has taken over what another had */
    int64_t watched_at; /* when files were looked at last */
    bool is_cut_off;    /* what came last could not be taken, so a file may count as written that is not */
    struct due due;
    mode_t mode_of_new_files;
    char *folder; /* the one in which it began; NULL where that isn't known */
    bool is_away; /* that is gone, so a process that only ends the session isn't in it */

    /* The link, and how the session is found again. */
    struct home home; /* without a folder where the session ends with its line */
    int home_watch;   /* by which the system says that a name in that folder has changed; -1 where it can't */
    bool has_streams; /* its line is standard input and output, and it ends with that */
    uint8_t id[SAM_LINK_ID_BYTES];
    bool is_named; /* a terminal has come, so the id is its session's */
    int listener;
    struct caller callers[MOST_CALLERS];
    struct waiter waiters[MOST_WAITERS];
    int line;     /* the newest connection, as bytes come over it; -1 where it is over */
    int line_out; /* the same, as bytes go over it */
    struct piece in, out;
    bool is_short; /* memory is out for what was read, or for what follows from it */
    bool is_done;  /* what the server asks for is done, and only to be noted as that */
    struct messages messages;
    struct journal journal;
    enum ending ending; /* why it ends */
    enum ending broken; /* LINE_BROKE or FAULT: what its standard streams came to; GOES_ON before that */
    bool has_ended;     /* the last message is put */
    bool is_to_end;     /* somebody has asked for its end */
    bool is_kept;       /* its folder stays, for another samhost to go on from its journal, also where that can't be written any more */
    int64_t begun, alone_since, longest_alone;
};

/* What the words say beside the files. */
struct options {
    bool offers_left, tells_times;
    int64_t longest_alone; /* milliseconds that a session stays alone */
    const char *name;      /* of a session that stays */
    bool waits;            /* until a file is closed */
};

/* Makes a session without files. Returns whether there is memory for it. */
bool make_session(struct session *session);
void free_session(struct session *session);

/* Reads the files into a session, and says what is to be known of them. Returns the exit status: 0, or why the session can't begin. */
int open_session(struct session *session, char **paths, int count, const struct options *options);

/* At the end of a session: saves what is not written, and says where it is. Returns the exit status. */
int close_session(struct session *session, enum ending ending);

/* Enters the folder in which the session began once more, where that was removed and is there again. The copies that went with it are saved
 * again soon. */
void enter_folder(struct session *session);

/* What the server counts of its link. */
uint64_t count_of(struct session *session, sam_status (*reader)(sam_server *server, uint64_t *count));

/* How many tags the host has given; 0 where there is no host. */
size_t count_tags(struct session *session);

/* Whether the session has the file of a tag: it has joined, and is not closed. And the same of any number, the command file's aside. */
bool has_file(struct session *session, size_t tag);
bool is_tag(struct session *session, uint64_t number);

/* Whether the terminal has closed the file just now while it was changed, and the server still lends its name and its text. */
bool is_closing(struct session *session, uint16_t tag);

/* Adds a file to the server, and hands out its tag. */
sam_status add_to_server(struct session *session, const char *name, const struct text *text, uint16_t *tag);

/* Whether a file is none of the user's. */
bool is_hidden(const struct session *session, size_t tag);

/* Tells a terminal that has heard nothing which files are hidden. Returns whether there is memory for that. */
bool tell_hidden(struct session *session);

#endif
