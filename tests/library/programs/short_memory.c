/*
 * short_memory.c: linked with the archive of the library, by --wrap, into a program or a shared library whose requests for memory are
 * counted, and are refused now and then: by random numbers, or those of these numbers.
 */
#include "short_memory.h"

#include <malloc.h>

void *__real_malloc(size_t size);
void *__real_realloc(void *old, size_t size);
void __real_free(void *old);
void *__wrap_malloc(size_t size);
void *__wrap_realloc(void *old, size_t size);
void __wrap_free(void *old);

static uint64_t state = 1, refused, first_refused, count_refused, requests;
static uint32_t rate;
static int spared;
static size_t held;

void refuse_memory(uint64_t seed, uint32_t one_in)
{
    state = seed * 2654435769U + 88172645463325252U;
    rate = one_in;
}

void refuse_requests(uint64_t first, uint64_t count)
{
    first_refused = first, count_refused = count, requests = 0;
}

void spare_memory(int is_spared)
{
    spared = is_spared;
}

uint64_t refused_memory(void)
{
    return refused;
}

size_t held_memory(void)
{
    return held;
}

static int is_refused(void)
{
    if (spared)
        return 0;
    state ^= state << 13, state ^= state >> 7, state ^= state << 17;
    requests++;
    if ((rate == 0 || (state >> 33) % rate != 0) && (requests < first_refused || requests - first_refused >= count_refused))
        return 0;
    refused++;
    return 1;
}

void *__wrap_malloc(size_t size)
{
    void *made = is_refused() ? NULL : __real_malloc(size);
    held += made == NULL ? 0 : malloc_usable_size(made);
    return made;
}

void *__wrap_realloc(void *old, size_t size)
{
    size_t before = old == NULL ? 0 : malloc_usable_size(old);
    void *made = is_refused() ? NULL : __real_realloc(old, size);
    held += made == NULL ? 0 : malloc_usable_size(made) - before;
    return made;
}

void __wrap_free(void *old)
{
    held -= old == NULL ? 0 : malloc_usable_size(old);
    __real_free(old);
}
