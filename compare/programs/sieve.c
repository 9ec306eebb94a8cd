/* Counts the primes below 8,192 by the sieve of Eratosthenes. */
#include "board.h"

#define LIMIT 8192

static u8 composite[LIMIT];

int main(void)
{
    u32 count = 0;
    for (u32 n = 2; n < LIMIT; n++) {
        if (composite[n])
            continue;
        count++;
        for (u32 multiple = n + n; multiple < LIMIT; multiple += n)
            composite[multiple] = 1;
    }
    return count;
}
