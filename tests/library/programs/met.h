/* met.h: what a run has met: each kind of thing that happened, and each status, how often. What a run never meets it doesn't try. */
#ifndef MET_H
#define MET_H

#include "runes.h"

enum { STATUSES = 512 };

/* What a run counts, beside statuses. */
struct meeting {
    const char *name;
    unsigned long count;
};

static unsigned long met_statuses[STATUSES];

/* The status, which is counted. */
static inline sam_status met(sam_status status)
{
    WANT((unsigned)status < STATUSES, 1);
    met_statuses[status]++;
    return status;
}

/* The name of a status alone. */
static inline int name_len(sam_status status)
{
    return (int)strcspn(sam_status_text(status), ":");
}

/* Prints what was met. Returns how much of what should be was not, and prints that. */
static inline unsigned long tell_met(const struct meeting *rows, size_t count, const sam_status *wanted, size_t wanted_count)
{
    unsigned long missing = 0;
    printf("met:");
    for (size_t i = 0; i < count; i++)
        printf(" %lu %s,", rows[i].count, rows[i].name);
    for (int status = 1; status < STATUSES; status++)
        if (met_statuses[status] > 0)
            printf(" %lu %.*s", met_statuses[status], name_len((sam_status)status), sam_status_text((sam_status)status));
    printf("\n");
    for (size_t i = 0; i < count; i++)
        if (rows[i].count == 0)
            missing++, printf("never met: %s\n", rows[i].name);
    for (size_t i = 0; i < wanted_count; i++)
        if (met_statuses[wanted[i]] == 0)
            missing++, printf("never met: %s\n", sam_status_text(wanted[i]));
    return missing;
}

#endif
