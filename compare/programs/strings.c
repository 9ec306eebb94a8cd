/* Byte strings: copies, compares, lengths, numbers as text, and bytes swapped by halves. */
#include "board.h"

OUT struct {
    char text[256];
    u16 swapped[64];
    s32 ordered[4];
} out;

static u32 length(const char *string)
{
    const char *end = string;
    while (*end)
        end++;
    return end - string;
}

static void copy(u8 *to, const u8 *from, u32 count)
{
    if (to < from)
        for (u32 i = 0; i < count; i++)
            to[i] = from[i];
    else
        while (count-- > 0)
            to[count] = from[count];
}

/* The first difference, of signed characters. */
static s32 compare(const s8 *x, const s8 *y)
{
    while (*x && *x == *y)
        x++, y++;
    return *x - *y;
}

static char *decimal(char *to, u32 number)
{
    if (number >= 10)
        to = decimal(to, number / 10);
    *to = '0' + number % 10;
    return to + 1;
}

static void append(const char *string)
{
    copy((u8 *)out.text + length(out.text), (const u8 *)string, length(string) + 1);
}

int main(void)
{
    static const u32 numbers[] = { 0, 9, 10, 65536, 4294967295u };
    for (u32 i = 0; i < sizeof numbers / sizeof *numbers; i++) {
        *decimal(out.text + length(out.text), numbers[i]) = 0;
        append(i % 2 ? " bands; " : " fibres, ");
    }
    /* Overlapping copies, up and down. */
    copy((u8 *)out.text + 3, (const u8 *)out.text, 20);
    copy((u8 *)out.text + 40, (const u8 *)out.text + 43, 20);
    for (u32 i = 0; i < 64; i++) {
        u16 half = ((const u16 *)out.text)[i];
        out.swapped[i] = half << 8 | half >> 8;
    }
    out.ordered[0] = compare((const s8 *)"lamp", (const s8 *)"lamp");
    out.ordered[1] = compare((const s8 *)"lamp", (const s8 *)"lamps");
    out.ordered[2] = compare((const s8 *)"\x80", (const s8 *)"\x7f");
    out.ordered[3] = compare((const s8 *)"frame", (const s8 *)"fraMe");
    return length(out.text);
}
