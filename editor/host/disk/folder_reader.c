/* folder_reader.c: reads the text files below a folder.
 *
 * Files of a folder come before those of the folders in it, by their names. None is taken that is hidden or below a link to a folder.
 */
#define _GNU_SOURCE
#include <errno.h>
#include <fts.h>
#include <stdlib.h>
#include <string.h>
#include <sys/stat.h>

#include "disk/folder_reader.h"
#include "disk/errors.h"
#include "disk/file_reader.h"
#include "session/session.h"

enum {
    MOST_OFFERED = 200, /* files that are taken of one folder */
    MOST_SEEN = 20000,  /* files that are looked at */
    MOST_FOLDERS = 10000
};

/* A folder among the words, and what became of the files below it. */
struct offer {
    struct session *session;
    struct marks *marks;
    int seen, taken, left_out, folders;
    bool is_full;     /* there are more than are taken, or looked at */
    bool is_too_deep; /* there are more folders than are looked into */
    int status;       /* why the session can't begin; else STATUS_OK */
};

bool has_mark(const struct marks *marks, const struct identity *wanted)
{
    size_t at = 0;

    while (at < marks->count && !is_one_file(&marks->items[at], wanted))
        at++;
    return at < marks->count;
}

int add_mark(struct marks *marks, const struct identity *identity)
{
    struct identity *items = realloc(marks->items, (marks->count + 1) * sizeof *items);

    if (items == NULL)
        return ENOMEM;
    items[marks->count] = *identity;
    marks->items = items;
    marks->count++;
    return 0;
}

/* Takes a file if it is a text. */
static void offer_file(struct offer *offer, const char *path)
{
    struct stat status;
    uint16_t tag;
    struct text text = {0};

    if (stat(path, &status) != 0 || S_ISDIR(status.st_mode))
        return;
    struct identity identity = identity_of(&status);
    if (has_mark(offer->marks, &identity))
        return;
    offer->is_full = offer->taken >= MOST_OFFERED || offer->seen >= MOST_SEEN;
    if (offer->is_full)
        return;
    offer->seen++;
    int error = S_ISREG(status.st_mode) ? read_whole(path, &text) : NOT_REGULAR;
    if (error == 0)
        error = text.len > 0 && memchr(text.bytes, '\0', text.len) != NULL ? NOT_TEXT : add_text(offer->session, path, &text, &tag);
    free(text.bytes);
    if (error == 0)
        error = add_mark(offer->marks, &identity);
    if (error == ENOMEM)
        offer->status = STATUS_MEMORY;
    else if (error == 0)
        offer->taken++;
    else
        offer->left_out++;
}

/* Files of a folder come before the folders in it, each by their names. */
static int compare_entries(const FTSENT **one, const FTSENT **other)
{
    int by_kind = ((*one)->fts_info == FTS_D) - ((*other)->fts_info == FTS_D);

    return by_kind != 0 ? by_kind : strcmp((*one)->fts_name, (*other)->fts_name);
}

static void offer_entry(struct offer *offer, FTS *tree, FTSENT *entry)
{
    if (entry->fts_level > 0 && entry->fts_name[0] == '.')
        (void)fts_set(tree, entry, FTS_SKIP);
    else if (entry->fts_info == FTS_DNR)
        say("%s: %s", entry->fts_path, cause(entry->fts_errno));
    else if (entry->fts_info == FTS_D)
        offer->is_too_deep = ++offer->folders > MOST_FOLDERS;
    else if (entry->fts_info != FTS_DP)
        offer_file(offer, entry->fts_path);
}

int add_folder(struct session *session, char *path, struct marks *marks)
{
    struct offer offer = {.session = session, .marks = marks};
    char *const paths[] = {path, NULL};
    FTS *tree = fts_open(paths, FTS_PHYSICAL | FTS_COMFOLLOW | FTS_NOCHDIR, compare_entries);
    FTSENT *entry = NULL;

    while (tree != NULL && offer.status == STATUS_OK && !offer.is_full && !offer.is_too_deep && (entry = fts_read(tree)) != NULL)
        offer_entry(&offer, tree, entry);
    int error = offer.status == STATUS_MEMORY ? ENOMEM : entry == NULL ? errno : 0;
    if (tree != NULL)
        (void)fts_close(tree);
    if (error != 0)
        say("%s: %s", path, cause(error));
    else if (offer.is_full)
        say("%s has more files; the first %d are offered", path, offer.taken);
    else if (offer.is_too_deep)
        say("%s has more than %d folders; %d files of the first ones are offered", path, MOST_FOLDERS, offer.taken);
    else if (offer.taken == 0)
        say("%s has no text files", path);
    if (offer.left_out > 0)
        say("%s: %d files are left out, as they are no UTF-8 text, are too long or can't be read", path, offer.left_out);
    return error == ENOMEM ? STATUS_MEMORY : STATUS_OK;
}
