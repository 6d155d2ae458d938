/* The heap of the library in a web page, where there is no C library. */
#ifndef HEAP_H
#define HEAP_H

#include <stddef.h>
#include <stdint.h>

/* As in C: each block is aligned to 16 bytes. NULL where the memory, or what heap_limit set, is at its end. */
void *malloc(size_t size);
void *realloc(void *old, size_t size);
void free(void *old);

/* The heap takes no more memory from the machine than so many bytes, rounded up to pages. There is no limit before the first call. */
void heap_limit(size_t bytes);

/* How many bytes are taken from the machine, and how many of them are in use, with the head of each block. Both go up and down with what
 * the program holds, but for the first: what it once took it keeps, and uses again. */
size_t heap_taken(void);
size_t heap_used(void);

/* For tests: how many requests were made (malloc, realloc); and refuses so many from now on, the first of them request `first`, where the
 * next is 1. */
uint64_t heap_asked(void);
void heap_refuse(uint64_t first, uint64_t count);

/* What the machine is asked for: at least so many bytes more, right after those that it gave before. Returns how many, a multiple of 16;
 * 0 if there are none. The first are at heap_first, aligned to 16 bytes. */
size_t heap_grow(size_t bytes);
void *heap_first(void);

#endif
