/* autosave.h: saves texts that are not written. */
#ifndef SAMHOST_DISK_AUTOSAVE_H
#define SAMHOST_DISK_AUTOSAVE_H

#include <stdbool.h>
#include <stdint.h>

struct copy;
struct document;
struct session;

/* When texts are saved aside by themselves. Times are milliseconds. */
struct due {
    bool is_waiting;
    int64_t first, last; /* when the first and the last input came since */
};

/* Takes the text of a file, or THE_CUT, into session->text. */
int take_text(struct session *session, uint16_t tag);

/* Whether the text of a file of the user's, also of one that is closed, or THE_CUT may be nowhere on disk. */
bool is_changed(struct session *session, uint16_t tag);

/* Has the text of a file stand on disk, and hands out where: in its file where that has it, else in the document's copy. */
enum place { IN_ITS_FILE, ASIDE };
int secure(struct session *session, uint16_t tag, enum place *place);

/* Whether its file has the text in session->text already. A copy may be removed any time, so it is no file, whatever it is named as. */
bool stands_in_its_file(struct session *session, uint16_t tag);

/* Takes the copy of a text for the user's own from now on. */
void forget_copy(struct copy *copy);

/* Removes the copy of a text that stands elsewhere by now, where it is the host's own. */
void drop_copy(struct copy *copy);

/* Whether a copy of the host's own stands at a path. */
bool is_copy_at(struct session *session, const char *path);

/* Saves all changed texts aside, and those of closed files that are still held. Says of a text once that it can't be saved. Returns whether
 * all are. */
bool save_changed(struct session *session);

/* Whether something that failed is to be tried once more: where memory is out, some times, and after a while. */
bool is_tried_again(int error, int *tries);

/* While the server lends the text of a file that was closed: saves it, or has its document hold it where the disk refuses it. Returns
 * whether there is memory for that. */
bool save_closing(struct session *session, uint16_t tag);

/* Behind that: forgets the document of a file that is gone, unless it holds its text. */
void forget_closed(struct session *session, uint16_t tag);

/* Frees what a document has. Its copy stays on disk. */
void free_document(struct document *document);

/* Saves a text that will not be written any more, and says where it is. Returns whether it is not lost. */
bool save_for_good(struct session *session, uint16_t tag);

/* The same of all changed texts, at the end; but for what was cut last where the terminal `has_left`, of which the copy goes. */
bool save_last(struct session *session, bool has_left);

#endif
