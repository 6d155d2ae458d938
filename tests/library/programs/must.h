/* must.h: MUST(CALL) ends the program where a call of the library fails, and says which. What steady.c and forward.c share. */
#ifndef MUST_H
#define MUST_H

#include "sulgrevad.h"

#include <stdio.h>
#include <stdlib.h>

static void must(sam_status status, const char *call)
{
    if (status == SAM_OK)
        return;
    printf("%s: %s\n", call, sam_status_text(status));
    fflush(stdout);
    _Exit(1);
}
#define MUST(call) must(call, #call)

#endif
