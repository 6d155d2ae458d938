/*
 * The heap of library/wasm by itself, over memory of this program: requests at random, whose blocks keep their bytes and never overlap; a
 * long session doesn't grow; what is freed is joined again; at a limit it answers NULL, and goes on. The words: a seed, and how many calls.
 * Where it breaks off it says why, and ends with 1.
 */
#include "heap.h"

#include <stdbool.h>
#include <stdint.h>
#include <stdio.h>
#include <stdlib.h>
#include <string.h>

/* heap.c is compiled with these names in the place of malloc and its kin, which are this program's own. */
void *heap_malloc(size_t size);
void *heap_realloc(void *old, size_t size);
void heap_free(void *old);

enum { BLOCKS = 2000, MEMORY = 1 << 28, PAGE = 65536, HEAD = 16 };

static _Alignas(16) uint8_t memory[MEMORY];
static size_t reached;
static uint64_t state;
static struct held {
    uint8_t *at, mark;
    size_t size;
} held[BLOCKS];

void *heap_first(void)
{
    return memory;
}

size_t heap_grow(size_t bytes)
{
    size_t came = (bytes + PAGE - 1) / PAGE * PAGE;
    if (came > MEMORY - reached)
        return 0;
    reached += came;
    return came;
}

static void expect(bool holds, const char *told)
{
    if (!holds) {
        printf("%s\n", told);
        exit(1);
    }
}

static uint64_t chance(uint64_t below)
{
    state ^= state << 13, state ^= state >> 7, state ^= state << 17;
    return state % below;
}

/* Mostly small, now and then some pages. */
static size_t any_size(void)
{
    return chance(50) == 0 ? chance(300000) : chance(8) == 0 ? chance(5000) : chance(200);
}

static void fill(struct held *block, size_t from)
{
    memset(block->at + from, block->mark, block->size - from);
}

static void check(const struct held *block, size_t size)
{
    for (size_t i = 0; i < size; i++)
        expect(block->at[i] == block->mark, "a block's bytes have changed");
}

static void one_call(void)
{
    struct held *block = &held[chance(BLOCKS)];
    size_t size = any_size();
    if (block->at && chance(2) == 0) {
        check(block, block->size);
        heap_free(block->at);
        *block = (struct held){0};
        return;
    }
    size_t kept = block->size < size ? block->size : size;
    uint8_t *at = block->at ? heap_realloc(block->at, size) : heap_malloc(size);
    expect(at != NULL, "no memory, though there is some");
    expect((uintptr_t)at % 16 == 0, "a block is not aligned");
    if (!block->at)
        block->mark = (uint8_t)chance(256), kept = 0;
    block->at = at, block->size = size;
    check(block, kept);
    fill(block, kept);
}

static void free_all(void)
{
    for (struct held *block = held; block < held + BLOCKS; block++) {
        check(block, block->size);
        heap_free(block->at);
        *block = (struct held){0};
    }
    expect(heap_used() == 0, "all is freed, and some is in use");
}

/* What is freed was joined to one block: a request for all that was taken is answered without more. */
static void take_whole(void)
{
    size_t taken = heap_taken();
    void *whole = heap_malloc(taken - 2 * HEAD);
    expect(whole != NULL && heap_taken() == taken, "what is freed is not one block again");
    heap_free(whole);
}

static void at_limit(void)
{
    size_t taken = heap_taken();
    heap_limit(taken);
    expect(heap_malloc(taken) == NULL && heap_malloc(SIZE_MAX) == NULL, "memory above the limit");
    uint8_t *small = heap_malloc(100);
    expect(small != NULL, "no memory below the limit");
    memset(small, 7, 100);
    expect(heap_realloc(small, taken) == NULL && small[99] == 7, "a block is lost where it can't grow");
    heap_free(small);
    heap_limit(SIZE_MAX);
    small = heap_malloc(taken);
    expect(small != NULL, "no memory once the limit is gone");
    heap_free(small);
    heap_refuse(2, 1);
    void *first = heap_malloc(1), *second = heap_malloc(1), *third = heap_malloc(1);
    expect(first && !second && third, "another request is refused");
    heap_free(first), heap_free(third);
}

int main(int count, char **words)
{
    state = count > 1 ? strtoull(words[1], NULL, 10) * 2654435761u + 1 : 1;
    uint64_t calls = count > 2 ? strtoull(words[2], NULL, 10) : 1000000;
    size_t early = 0;
    for (uint64_t i = 1; i <= calls; i++) {
        one_call();
        if (i == calls / 4)
            early = heap_taken();
    }
    expect(heap_taken() <= early + early / 4, "the heap grows");
    expect(heap_used() <= heap_taken(), "more is in use than was taken");
    printf("%zu bytes taken, %zu in use\n", heap_taken(), heap_used());
    free_all();
    take_whole();
    at_limit();
    return 0;
}
