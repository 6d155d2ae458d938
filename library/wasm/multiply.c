/* The product of two numbers of 128 bits, which the machine of web pages has no instruction for: clang calls this. */
#include <stdint.h>

__extension__ typedef unsigned __int128 wide;

wide __multi3(wide one, wide other);

/* The product of two numbers of 64 bits, by their halves. */
static wide product(uint64_t one, uint64_t other)
{
    uint64_t low = one & UINT32_MAX, high = one >> 32, other_low = other & UINT32_MAX, other_high = other >> 32;
    uint64_t first = low * other_low, second = high * other_low + (first >> 32), third = low * other_high + (second & UINT32_MAX);
    return (wide)(high * other_high + (second >> 32) + (third >> 32)) << 64 | third << 32 | (first & UINT32_MAX);
}

wide __multi3(wide one, wide other)
{
    uint64_t cross = (uint64_t)(one >> 64) * (uint64_t)other + (uint64_t)one * (uint64_t)(other >> 64);
    return product((uint64_t)one, (uint64_t)other) + ((wide)cross << 64);
}
