/* errors.c: what is wrong with a file or a text, as error numbers: those of errno.h, and more that no call gives here. */
#define _XOPEN_SOURCE 700
#include <errno.h>
#include <string.h>

#include "disk/errors.h"
#include "sulgrevad.h"

/* Of each error its code in messages, its words where the system has others, or none, and the status of the host of the library. */
static const struct {
    int error;
    enum sam_note_code code;
    const char *words;
    sam_status status;
} errors[] = {
    {0, SAM_NOTE_NO_CODE, NULL, SAM_OK},
    {ENOSPC, SAM_NOTE_NO_SPACE, NULL, 0},
    {EDQUOT, SAM_NOTE_NO_SPACE, NULL, 0},
    {EFBIG, SAM_NOTE_NO_SPACE, NULL, 0}, /* a limit of the user's on the size of files */
    {EACCES, SAM_NOTE_NO_PERMISSION, NULL, 0},
    {EPERM, SAM_NOTE_NO_PERMISSION, NULL, 0},
    {EROFS, SAM_NOTE_READ_ONLY, NULL, 0},
    {ENOENT, SAM_NOTE_NOT_FOUND, NULL, 0},
    {ENOTDIR, SAM_NOTE_NOT_FOUND, NULL, 0},
    {EISDIR, SAM_NOTE_IS_FOLDER, NULL, 0},
    {ENOMEM, SAM_NOTE_NO_MEMORY, NULL, SAM_NO_MEMORY},
    {EIO, SAM_NOTE_FAILED, NULL, 0},
    {NOT_REGULAR, SAM_NOTE_OTHER, "it is not a regular file", 0},
    {IS_CHANGED, SAM_NOTE_CHANGED_SINCE, "another program changed it, and the next write replaces it", 0},
    {MAY_BE_BROKEN, SAM_NOTE_CHANGED_SINCE,
     "another program changed it, or a write that broke off, and .sam-old beside it has what it was; the next write replaces it", 0},
    {NOT_SEEN, SAM_NOTE_UNREADABLE, "it can't be read, so another program may have changed it, and the next write replaces it", 0},
    {IS_THERE, SAM_NOTE_EXISTS_ALREADY, "it is there already, and the next write replaces it", 0},
    {IS_GONE, SAM_NOTE_NOT_FOUND, "it is gone, perhaps with its disk, and the next write makes it anew", 0},
    {NO_NAME, SAM_NOTE_NO_NAME, "it has no name yet, or one that no file can have", 0},
    {NOT_WRITTEN, SAM_NOTE_TAKEN_UNSAVED, "it was not written before this terminal took the session over", 0},
    {NO_FOLDER, SAM_NOTE_NOT_FOUND, "there is no such folder", 0},
    {NO_FILE, SAM_NOTE_NO_SUCH_FILE, "there is no such file", 0},
    {NOT_TEXT, SAM_NOTE_NOT_TEXT, "it is not UTF-8", SAM_NOT_TEXT},
    {TEXT_TOO_LONG, SAM_NOTE_TOO_LONG, "it is longer than 1,000,000 characters", SAM_ADD_TOO_LONG},
    {TOO_MANY_FILES, SAM_NOTE_TOO_MANY, "there are too many files", SAM_ADD_NO_TAG},
    {IS_OVER, SAM_NOTE_OTHER, "the session has ended", 0},
    {NOT_TAKEN, SAM_NOTE_OTHER, "the host doesn't take it", 0},
    {IS_REMOVED, SAM_NOTE_NOT_FOUND, "somebody has removed its folder, or a file in it", 0},
    {OTHER_HAS_IT, SAM_NOTE_OTHER, "another samhost has gone on with it", 0},
};

enum { ERRORS = sizeof errors / sizeof errors[0] };

/* The place of an error among them; ERRORS where it isn't there. */
static size_t place_of(int error)
{
    size_t at = 0;

    while (at < ERRORS && errors[at].error != error)
        at++;
    return at;
}

const char *cause(int error)
{
    size_t at = place_of(error);

    return at < ERRORS && errors[at].words != NULL ? errors[at].words : strerror(error);
}

enum sam_note_code code_of(int error)
{
    size_t at = place_of(error);

    return at < ERRORS ? errors[at].code : SAM_NOTE_OTHER;
}

int error_of_status(sam_status status)
{
    size_t at = 0;

    while (at < ERRORS && errors[at].status != status)
        at++;
    return at < ERRORS ? errors[at].error : NOT_TAKEN;
}
