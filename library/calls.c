/* What the proved functions call for memory, where the toolchain's own archive of it, which is for x86-64, doesn't fit: ARM and web pages. */
#include <stdbool.h>
#include <stddef.h>
#include <stdint.h>
#include <stdlib.h>

/* Whether there is memory, and where. The place is never NULL. */
struct given {
    bool is_there;
    void *at;
};

static char nothing;

static struct given give(void *at)
{
    return (struct given){at != NULL, at ? at : &nothing};
}

struct given rattle_alloc(size_t size, size_t alignment);
struct given rattle_realloc(void *old, size_t kept, size_t size, size_t alignment);
void rattle_dealloc(void *old);

/* No type of the library wants a greater alignment than malloc gives: it has no types of vectors. */
struct given rattle_alloc(size_t size, size_t alignment)
{
    return give(malloc(size ? size : alignment));
}

struct given rattle_realloc(void *old, size_t kept, size_t size, size_t alignment)
{
    (void)kept;
    return give(realloc(old, size ? size : alignment));
}

void rattle_dealloc(void *old)
{
    free(old);
}
