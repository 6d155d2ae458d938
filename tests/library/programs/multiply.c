/* The product of library/wasm/multiply.c, compared with the compiler's own: of numbers at random, and of those at the ends of a half. */
#include <stdint.h>
#include <stdio.h>

__extension__ typedef unsigned __int128 wide;

/* multiply.c is compiled with this name in the place of the compiler's own. */
wide multiply(wide one, wide other);

static uint64_t state = 88172645463325252u;

static uint64_t half(void)
{
    static const uint64_t ends[] = {0, 1, UINT32_MAX, (uint64_t)UINT32_MAX + 1, UINT64_MAX, UINT64_MAX - 1};
    state ^= state << 13, state ^= state >> 7, state ^= state << 17;
    return state % 3 == 0 ? ends[state / 3 % (sizeof ends / sizeof *ends)] : state;
}

int main(void)
{
    for (int i = 0; i < 1000000; i++) {
        wide one = (wide)half() << 64 | half(), other = (wide)half() << 64 | half();
        if (multiply(one, other) != one * other) {
            printf("a product is wrong\n");
            return 1;
        }
    }
    return 0;
}
