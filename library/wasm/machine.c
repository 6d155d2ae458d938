/* What the library needs of a web page's machine: pages of memory, and what copies memory, which are instructions there. */
#include "heap.h"

#include <string.h>

enum { PAGE = 65536 };

extern uint8_t __heap_base; /* of the linker: where stack and data end */
static size_t reached;      /* the end of what heap_grow gave */

void *heap_first(void)
{
    return (void *)(((size_t)&__heap_base + 15) & ~(size_t)15);
}

size_t heap_grow(size_t bytes)
{
    if (reached == 0)
        reached = (size_t)heap_first();
    size_t end = __builtin_wasm_memory_size(0) * PAGE;
    if (end - reached < bytes) {
        size_t pages = (bytes - (end - reached) + PAGE - 1) / PAGE;
        if (__builtin_wasm_memory_grow(0, pages) == (size_t)-1)
            return 0;
        end += pages * PAGE;
    }
    size_t came = end - reached;
    reached = end;
    return came;
}

void *memcpy(void *to, const void *from, size_t count)
{
    return __builtin_memcpy(to, from, count);
}

void *memmove(void *to, const void *from, size_t count)
{
    return __builtin_memmove(to, from, count);
}

void *memset(void *to, int value, size_t count)
{
    return __builtin_memset(to, value, count);
}
