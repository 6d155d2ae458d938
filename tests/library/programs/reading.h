/* reading.h: READ(CALL) is the status of a call that takes no memory; it ends the program with status 1 if the call asks for some. */
#ifndef READING_H
#define READING_H

#include "counted.h"

#include <stdio.h>
#include <stdlib.h>

#include "sulgrevad.h"

static unsigned long reader_calls, asked_before;

static sam_status read_status(const char *call, sam_status status)
{
    if (asked != asked_before) {
        printf("%s asks for memory\n", call);
        exit(1);
    }
    reader_calls++;
    return status;
}
#define READ(call) (asked_before = asked, read_status(#call, call))

#endif
