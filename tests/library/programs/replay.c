/*
 * replay ROOM: the script on standard input, by sam_replay, as `sam_play replay` does. The buffer has room for ROOM bytes at first, and
 * then for all that is printed. A call that wants memory is made again, so the output is the same whichever request for memory was refused.
 * It ends with status 0, or 1 at a wrong script.
 */
#include "sulgrevad.h"

#include <stdio.h>
#include <stdlib.h>

static uint8_t *script;
static size_t script_len;

/* A block of at least so many bytes; asked for again where memory is refused. */
static uint8_t *block(uint8_t *old, size_t size)
{
    uint8_t *new;
    while (!(new = realloc(old, size + 1)))
        ;
    return new;
}

static void read_script(void)
{
    size_t room = 0;
    for (int byte = getchar(); byte != EOF; byte = getchar()) {
        if (script_len == room)
            script = block(script, room = 2 * room + 4096);
        script[script_len++] = (uint8_t)byte;
    }
}

static sam_status replay(uint8_t *out, size_t room, size_t *len, size_t *line)
{
    sam_status status;
    while ((status = sam_replay(script, script_len, out, room, len, line)) == SAM_NO_MEMORY)
        ;
    return status;
}

int main(int argc, char **argv)
{
    size_t room = argc == 2 ? strtoul(argv[1], NULL, 10) : 0, len = 0, line = 0;
    uint8_t *out = block(NULL, room);
    read_script();
    sam_status status = replay(out, room, &len, &line);
    if (status == SAM_OK && len > room) {
        room = len;
        out = block(out, room);
        status = replay(out, room, &len, &line);
    }
    if (status == SAM_OK)
        fwrite(out, 1, len, stdout);
    else if (status == SAM_SCRIPT_LINE)
        printf("= fault script %lu\n", (unsigned long)line);
    else
        printf("status %lu\n", (unsigned long)status);
    free(out);
    free(script);
    return status == SAM_OK ? 0 : 1;
}
