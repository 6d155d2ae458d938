/* sides.h: the host and the terminal of a program, and how it ends where something is wrong: with status 1 and a line that says what. */
#ifndef SIDES_H
#define SIDES_H

#include "sulgrevad.h"

#include <stdio.h>
#include <stdlib.h>
#include <string.h>

enum { MOST = 1 << 16 };

static sam_host host;
static sam_term term;

static void fail(const char *what, uint32_t status)
{
    printf("%s: %lu\n", what, (unsigned long)status);
    exit(1);
}

static void want(const char *what, sam_status status)
{
    if (status != SAM_OK)
        fail(what, status);
}

#endif
