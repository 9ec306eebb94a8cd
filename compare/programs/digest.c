/* A digest of pseudo-random words: rotations, sign extensions, and 64-bit sums and differences by the carry. */
#include "board.h"

#define COUNT 500

OUT struct {
    u32 by_seven;
    u32 by_itself;
    u32 high, low;
    u32 borrows;
    s32 bytes;
    s32 halves;
} out;

static inline u32 rotate(u32 x, u32 places)
{
    return x >> (places & 31) | x << (-places & 31);
}

/* out.high and out.low together are one number. */
static inline void add_wide(u32 amount)
{
    u32 high = out.high, low = out.low;
    __asm__("l.add %1, %1, %2\n    l.addc %0, %0, r0\n    l.addi %1, %1, -1\n    l.addic %0, %0, -1"
            : "+&r"(high), "+&r"(low) : "r"(amount) : "cc");
    out.high = high;
    out.low = low;
}

static inline u32 borrow(u32 x, u32 y)
{
    u32 carry;
    __asm__("l.sub %0, %1, %2\n    l.addc %0, r0, r0" : "=r"(carry) : "r"(x), "r"(y) : "cc");
    return carry;
}

int main(void)
{
    u32 state = 5;
    for (u32 i = 0; i < COUNT; i++) {
        u32 x = next(&state);
        out.by_seven = rotate(out.by_seven ^ x, 7);
        out.by_itself = rotate(out.by_itself + x, x);
        add_wide(x);
        out.borrows += borrow(x, out.low);
        out.bytes += (s8)(x >> 3);
        out.halves += (s16)(x >> 5);
    }
    return out.by_seven ^ out.by_itself;
}
