/*
 * counted.h: malloc, realloc and free for a program, and so for the library in it. `asked` is how often memory was asked for, `blocks` how
 * many blocks are out that were not given back.
 */
#ifndef COUNTED_H
#define COUNTED_H

#include <stddef.h>

void *__libc_malloc(size_t size);
void *__libc_realloc(void *old, size_t size);
void __libc_free(void *old);

static unsigned long asked;
static long blocks;

void *malloc(size_t size)
{
    void *made = __libc_malloc(size);
    asked++;
    blocks += made != NULL;
    return made;
}

void *realloc(void *old, size_t size)
{
    void *made = __libc_realloc(old, size);
    asked++;
    blocks += old == NULL && made != NULL;
    return made;
}

void free(void *old)
{
    blocks -= old != NULL;
    __libc_free(old);
}

#endif
