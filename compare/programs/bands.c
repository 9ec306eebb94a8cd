/* A band loop that is patched for each lamp: its offset and its shift are written into its instructions. */
#include "board.h"

#define LAMPS 5
#define LENGTH 200

OUT struct {
    u16 exposed[LAMPS][LENGTH];
} out;

extern u32 offset_word, shift_word;
void band_loop(u16 *to, const u8 *from, u32 count);

/* to r3, from r4, count r5 */
__asm__(
    ".text\n"
    "band_loop:\n"
    "    l.lbz   r13, 0(r4)\n"
    "offset_word:\n"
    "    l.addi  r13, r13, 0\n"
    "shift_word:\n"
    "    l.slli  r13, r13, 0\n"
    "    l.sh    0(r3), r13\n"
    "    l.addi  r5, r5, -1\n"
    "    l.sfne  r5, r0\n"
    "    l.addi  r3, r3, 2\n"
    "    l.bf    band_loop\n"
    "    l.addi  r4, r4, 1\n"
    "    l.jr    r9\n"
    "    l.nop\n");

/* The offset by a halfword into l.addi's immediate, the shift by a byte into l.slli's. */
static void patch(s32 offset, u32 shift)
{
    ((volatile u16 *)&offset_word)[1] = offset;
    ((volatile u8 *)&shift_word)[3] = shift;
}

int main(void)
{
    static u8 band[LENGTH];
    u32 state = 4, sum = 0;
    for (u32 i = 0; i < LENGTH; i++)
        band[i] = next(&state);
    for (u32 lamp = 0; lamp < LAMPS; lamp++) {
        patch(17 - 10 * (s32)lamp, lamp);
        band_loop(out.exposed[lamp], band, LENGTH);
    }
    for (u32 lamp = 0; lamp < LAMPS; lamp++)
        for (u32 i = 0; i < LENGTH; i++)
            sum += out.exposed[lamp][i];
    return sum;
}
