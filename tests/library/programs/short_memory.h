/* short_memory.h: the library's requests for memory, which short_memory.c counts, and refuses now and then. */
#ifndef SHORT_MEMORY_H
#define SHORT_MEMORY_H

#include <stddef.h>
#include <stdint.h>

/* About one request in `one_in` is refused; none if that is 0. */
void refuse_memory(uint64_t seed, uint32_t one_in);
/* Of the requests from now on those from the `first` on are refused, so many; none if that is 0. They are counted from 1. */
void refuse_requests(uint64_t first, uint64_t count);
/* Meanwhile none is refused, and none is counted. */
void spare_memory(int is_spared);
/* How many requests were refused. */
uint64_t refused_memory(void);
/* How many bytes the library holds. */
size_t held_memory(void);

#endif
