/* Blocks lie side by side, each with the size of the one before in its head, so that a block which is freed is joined with free neighbours.
 * Free blocks hang in lists by their size: four lists for each power of two. A set of the lists that hold some finds the next greater. */
#include "heap.h"

#include <stdbool.h>
#include <string.h>

enum { HEAD = 16, LEAST = 32, IN_USE = 1, PARTS = 4, FIRST_POWER = 5, POWERS = 43, LISTS = PARTS * POWERS, TRIED = 16, STEP = 1 << 18 };

/* The greatest request, far above what any machine has, so that no sum of sizes wraps. */
static const size_t MOST = (size_t)1 << 46;

struct block {
    size_t before;                 /* the size of the block before, 0 at the first */
    size_t size;                   /* of this block with its head, a multiple of 16; and IN_USE */
    struct block *next, *previous; /* these two stand in free blocks alone */
};

static struct block *lists[LISTS];
static uint64_t held[(LISTS + 63) / 64]; /* a bit for each list that holds a block */
static struct block *last;               /* the end of the memory: a head of size 0, in use */
static size_t limit = SIZE_MAX, taken, used;
static uint64_t asked, refused_from, refused_to;

static size_t size_of(const struct block *block)
{
    return block->size & ~(size_t)IN_USE;
}

static struct block *at(struct block *block, size_t offset)
{
    return (struct block *)((uint8_t *)block + offset);
}

/* The list of a size: lists are for LEAST and more, each for sizes from its own first to that of the next. */
static int list_of(size_t size)
{
    int power = 63 - __builtin_clzll(size);
    return PARTS * (power - FIRST_POWER) + (int)(size >> (power - 2) & (PARTS - 1));
}

static void put(struct block *block)
{
    int list = list_of(block->size);
    block->previous = NULL;
    block->next = lists[list];
    if (block->next)
        block->next->previous = block;
    lists[list] = block;
    held[list / 64] |= (uint64_t)1 << list % 64;
}

static void take(struct block *block)
{
    int list = list_of(block->size);
    if (block->next)
        block->next->previous = block->previous;
    if (block->previous)
        block->previous->next = block->next;
    else
        lists[list] = block->next;
    if (!lists[list])
        held[list / 64] &= ~((uint64_t)1 << list % 64);
}

/* Sets the size of a block, which the block after it learns. */
static void set_size(struct block *block, size_t size)
{
    block->size = size;
    at(block, size)->before = size;
}

/* Joins a block, which hangs in no list, with its free neighbours, and hangs it up. */
static void join(struct block *block)
{
    size_t size = size_of(block);
    struct block *after = at(block, size);
    if (!(after->size & IN_USE)) {
        take(after);
        size += after->size;
    }
    if (block->before) {
        struct block *before = (struct block *)((uint8_t *)block - block->before);
        if (!(before->size & IN_USE)) {
            take(before);
            size += before->size;
            block = before;
        }
    }
    set_size(block, size);
    put(block);
}

/* The first list from this one on that holds a block; LISTS if none does. */
static int next_held(int list)
{
    for (int word = list / 64; word < (LISTS + 63) / 64; word++) {
        uint64_t bits = held[word];
        if (word == list / 64)
            bits &= ~(uint64_t)0 << list % 64;
        if (bits)
            return word * 64 + __builtin_ctzll(bits);
    }
    return LISTS;
}

/* A free block of at least this size, taken from its list; NULL if there is none. Of the size's own list only the first few are tried. */
static struct block *find(size_t size)
{
    int list = list_of(size), tries = TRIED;
    struct block *block = lists[list];
    while (block && block->size < size)
        block = --tries > 0 ? block->next : NULL;
    if (!block) {
        list = next_held(list + 1);
        block = list < LISTS ? lists[list] : NULL;
    }
    if (block)
        take(block);
    return block;
}

/* Takes memory of the machine for a block of this size, and hangs it up. */
static bool extend(size_t size)
{
    size_t least = size + 2 * HEAD, wish = least > STEP ? least : STEP, room = limit > taken ? limit - taken : 0;
    size_t came = least <= room ? heap_grow(wish <= room ? wish : least) : 0;
    if (came == 0 && least < wish && least <= room)
        came = heap_grow(least);
    if (came == 0)
        return false;
    struct block *block = last;
    taken += came;
    if (!block) {
        block = heap_first();
        block->before = 0;
        came -= HEAD; /* of the end */
    }
    last = at(block, came);
    last->size = IN_USE;
    block->size = came;
    join(block);
    return true;
}

/* Cuts a block, which hangs in no list, down to this size, and marks it. What is left over is free. */
static void cut(struct block *block, size_t size)
{
    size_t there = size_of(block);
    used += size - there;
    if (there - size >= LEAST) {
        struct block *rest = at(block, size);
        set_size(block, size);
        rest->size = there - size;
        block->size |= IN_USE; /* before the rest is joined with what is free beside it */
        join(rest);
    } else {
        used += there - size;
        set_size(block, there);
        block->size |= IN_USE;
    }
}

/* The size of the block for a request, 0 if it is too great. */
static size_t wanted(size_t size)
{
    if (size > MOST)
        return 0;
    size = (size + HEAD + 15) & ~(size_t)15;
    return size < LEAST ? LEAST : size;
}

static void *give(size_t size)
{
    struct block *block = find(size);
    if (!block && extend(size))
        block = find(size);
    if (!block)
        return NULL;
    used += block->size;
    cut(block, size);
    return at(block, HEAD);
}

static bool is_refused(void)
{
    asked++;
    return refused_from <= asked && asked < refused_to;
}

void *malloc(size_t size)
{
    size = wanted(size);
    return is_refused() || size == 0 ? NULL : give(size);
}

void free(void *old)
{
    if (!old)
        return;
    struct block *block = (struct block *)((uint8_t *)old - HEAD);
    block->size = size_of(block);
    used -= block->size;
    join(block);
}

void *realloc(void *old, size_t size)
{
    if (!old)
        return malloc(size);
    size = wanted(size);
    if (is_refused() || size == 0)
        return NULL;
    struct block *block = (struct block *)((uint8_t *)old - HEAD);
    size_t there = size_of(block);
    struct block *after = at(block, there);
    if (there < size && !(after->size & IN_USE) && there + after->size >= size) {
        take(after);
        used += after->size;
        there += after->size;
        set_size(block, there);
    }
    if (there >= size) {
        cut(block, size);
        return old;
    }
    void *fresh = give(size);
    if (fresh) {
        memcpy(fresh, old, there - HEAD);
        free(old);
    }
    return fresh;
}

void heap_limit(size_t bytes)
{
    limit = bytes;
}

size_t heap_taken(void)
{
    return taken;
}

size_t heap_used(void)
{
    return used;
}

uint64_t heap_asked(void)
{
    return asked;
}

void heap_refuse(uint64_t first, uint64_t count)
{
    refused_from = asked + first;
    refused_to = refused_from + count;
}
