/* ending.h: why a session ends, and the exit statuses. */
#ifndef SAMHOST_SESSION_ENDING_H
#define SAMHOST_SESSION_ENDING_H

enum {
    STATUS_OK = 0,
    STATUS_UNREADABLE = 1,
    STATUS_WORDS = 2,
    STATUS_FAULT = 3,
    STATUS_MEMORY = 4,
    STATUS_LOST = 5,
    STATUS_BROKEN = 6,
    STATUS_NO_SESSION = 7
};

/* Why a session ends. */
enum ending { GOES_ON, LEFT, INPUT_ENDED, LINE_BROKE, FAULT };

#endif
