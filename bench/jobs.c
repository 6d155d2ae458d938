/* Jobs that show what the calls of the C library cost. The words name a job and its size; the job prints them, the nanoseconds that its
 * work took, and a check value of what it made. */
#include "jobs.h"

#include <inttypes.h>
#include <stdio.h>
#include <stdlib.h>
#include <string.h>

static const struct {
    const char *name;
    struct report (*job)(uint32_t size);
} JOBS[] = {
    {"find", find},           {"x", x},           {"undo", undo},         {"both_ends", both_ends}, {"files", files}, {"waiting", waiting},
    {"scattered", scattered}, {"linked", linked}, {"unlinked", unlinked},
};

int main(int words, char **word)
{
    for (size_t i = 0; words == 3 && i < sizeof JOBS / sizeof JOBS[0]; i++) {
        if (strcmp(JOBS[i].name, word[1]) == 0) {
            struct report found = JOBS[i].job((uint32_t)strtoul(word[2], NULL, 10));
            printf("%s %s %" PRId64 " %" PRIu64 "\n", word[1], word[2], found.took, found.check);
            return 0;
        }
    }
    fputs("usage: jobs JOB SIZE\n", stderr);
    return 2;
}
