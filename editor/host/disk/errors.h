/* errors.h: what is wrong with a file or a text, as error numbers: those of errno.h, and more that no call gives here. */
#ifndef SAMHOST_DISK_ERRORS_H
#define SAMHOST_DISK_ERRORS_H

#include <errno.h>

#include "sulgrevad.h"

#define NOT_REGULAR EINVAL     /* it is there and is no regular file */
#define IS_CHANGED ECANCELED   /* another program changed it */
#define MAY_BE_BROKEN ENOTUNIQ /* another program changed it, or a write in place that broke off */
#define NOT_SEEN ENOANO        /* it can't be read, so another program may have changed it */
#define IS_THERE EALREADY      /* it is there, and nobody has asked for it */
#define IS_GONE EXFULL         /* it is gone, though it was there */
#define NO_NAME EDOM           /* it has no name yet, or one that no file can have */
#define NOT_WRITTEN EOWNERDEAD /* an earlier terminal has changed it, and not written it */
#define NO_FOLDER ESRCH        /* the folder in which it is to be isn't there */
#define NO_FILE ENOMSG         /* the session has no file of this tag */
#define NOT_TEXT EILSEQ        /* it is not UTF-8 */
#define TEXT_TOO_LONG EMSGSIZE /* it is longer than a text may be */
#define TOO_MANY_FILES EUSERS  /* the session has as many files as it may have */
#define IS_OVER ESHUTDOWN      /* its session has ended */
#define IS_REMOVED EIDRM       /* somebody has removed it, or what it is found by, while it is in use */
#define OTHER_HAS_IT EREMCHG   /* another samhost has gone on with the session */
#define NOT_TAKEN EPROTO       /* the host doesn't take it, for another reason */

/* What is wrong, in words. */
const char *cause(int error);

/* What is wrong, as a message to the terminal has it. */
enum sam_note_code code_of(int error);

/* Why the host of the library has not added a file, by its status; 0 where it has. */
int error_of_status(sam_status status);

#endif
