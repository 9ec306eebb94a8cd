/* Multiply and divide by shifts. */
#include "board.h"

u32 __mulsi3(u32 a, u32 b)
{
    u32 product = 0;
    for (; b != 0; b >>= 1, a <<= 1)
        if (b & 1)
            product += a;
    return product;
}

static u32 divide(u32 a, u32 b, u32 *rest)
{
    u32 quotient = 0, left = 0;
    for (int bit = 31; bit >= 0; bit--) {
        left = left << 1 | (a >> bit & 1);
        if (left >= b) {
            left -= b;
            quotient |= 1u << bit;
        }
    }
    *rest = left;
    return quotient;
}

u32 __udivsi3(u32 a, u32 b)
{
    u32 rest;
    return divide(a, b, &rest);
}

u32 __umodsi3(u32 a, u32 b)
{
    u32 rest;
    divide(a, b, &rest);
    return rest;
}
