/* session_directory.h: the folders of sessions that stay: one for each, with its socket, its lock and its journal. */
#ifndef SAMHOST_SESSION_SESSION_DIRECTORY_H
#define SAMHOST_SESSION_SESSION_DIRECTORY_H

#include <stdbool.h>
#include <stdint.h>

enum { NAME_DIGITS = 16 }; /* digits of the name of a session that stays: the first half of its link's id */

#define JOURNAL "journal" /* names of files in the folder of a session that stays */
#define NEW_JOURNAL "journal.new"
#define UNFINISHED_JOURNAL "journal.unfinished" /* one that could not be written to its end */
#define WRONG_JOURNAL "journal.wrong"           /* one from which no session can be made */
#define ABOUT "name"
#define BEFORE "before" /* the names that the session had before other terminals took it over, and then the one that it has */

/* The folder of a session that stays, and that of all of them; the lock, where this process holds it. Open files, or -1. */
struct home {
    char name[NAME_DIGITS + 1];
    int all, folder, lock;
};

/* Whether a word is the name of a session that stays. */
bool is_home_name(const char *word);

/* Opens the folder of a session; makes it where `makes` says so. EPERM where one of that name is not the user's alone. */
int open_home(const char *name, bool makes, struct home *home);
void close_home(struct home *home);

/* Opens the folder of the session of a name; also one that a takeover has not come to name so. ENOENT where there is none. */
int open_named(const char *name, struct home *home);

/* Opens a file in the folder, which is made where it isn't there, for the user alone whatever the umask. */
int make_in_home(const struct home *home, const char *name, int flags, int *file);

/* Has the folder be on the disk, with the names of what it has. */
int sync_home(const struct home *home);

/* Gives the folder another name. */
int rename_home(struct home *home, const char name[NAME_DIGITS + 1]);

/* Removes the folder and what a session has in it, unless the lock is lost. One that has a wrong journal stays, with that. */
void remove_home(struct home *home);

/* Keeps the journal as a wrong one, unless there is one, and hands out its path, in memory of the caller's; NULL where memory is out. */
int keep_wrong_journal(const struct home *home, char **path);

/* The path of a wrong journal that the folder has, in memory of the caller's; NULL where it has none. */
char *find_wrong_journal(const struct home *home);

/* Takes the lock, which is kept until the file of it is closed. EWOULDBLOCK where a living samhost has it. */
int lock_home(struct home *home);

/* Whether the lock that this process has is still the one in the folder: who has not may change no name there. */
bool has_lock(const struct home *home);

/* Where somebody has removed the lock, or the folder with it: makes them again, and takes the lock. */
int renew_home(struct home *home);

/* Whether an open file is the one that has a name in the folder. */
bool is_in_home(const struct home *home, const char *name, int file);

/* Writes into the lock which process has it. */
void write_owner(const struct home *home);

/* Makes the socket, which nobody but the user may connect to. Connections come once it listens; who has it listen is who is found at its
 * other end. */
int bind_home(const struct home *home, int *listener);
int listen_at(int listener);
bool has_socket(const struct home *home);

/* Connects to the samhost of a session. Where too many others wait for it, EAGAIN after so many milliseconds; 0: after any time. */
int connect_home(const struct home *home, int64_t longest, int *line);

/* Whether the other end of a connection is the user's own. */
bool is_ours(int socket);

/* Visits the folder of each session, until a visit returns an error number. */
int each_home(int (*visit)(struct home *home, void *at), void *at);

/* Before a terminal takes the session over: writes the name that it has, and the one that it is to have; that goes with the folder. */
void write_names(const struct home *home, const char before[NAME_DIGITS + 1], const char after[NAME_DIGITS + 1]);

/* Finds the session that had a name before another terminal took it over, and hands out how its folder is named. Returns whether there is
 * one. */
bool find_heir(const char *name, char heir[NAME_DIGITS + 1]);

#endif
