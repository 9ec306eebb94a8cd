/* The histogram of a band of 96 by 64 bytes, its threshold, and the fibres in its rows: runs of bright bytes. */
#include "board.h"

#define WIDTH 96
#define HEIGHT 64

OUT struct {
    u32 histogram[256];
    u32 threshold;
    u32 fibres;
    u32 first_bright[HEIGHT];
    u32 last_bright[HEIGHT];
} out;

static u8 band[HEIGHT][WIDTH];

static inline u32 first_one(u32 word)
{
    u32 place;
    __asm__("l.ff1 %0, %1" : "=r"(place) : "r"(word));
    return place;
}

static inline u32 last_one(u32 word)
{
    u32 place;
    __asm__("l.fl1 %0, %1" : "=r"(place) : "r"(word));
    return place;
}

static void expose(void)
{
    u32 state = 3;
    for (u32 y = 0; y < HEIGHT; y++)
        for (u32 x = 0; x < WIDTH; x++)
            band[y][x] = (next(&state) & 0x7f) + (((x + y) & 12) == 12 ? 0x80 : 0);
}

/* The least value that at least three quarters of the bytes are below. */
static u32 upper_quarter(void)
{
    u32 below = 0, value = 0;
    while (below < WIDTH * HEIGHT / 4 * 3)
        below += out.histogram[value++];
    return value;
}

static u32 runs_in(const u8 *row)
{
    u32 runs = 0;
    int inside = 0;
    for (u32 x = 0; x < WIDTH; x++) {
        int bright = row[x] >= out.threshold;
        runs += bright && !inside;
        inside = bright;
    }
    return runs;
}

/* Where the first 32 bytes of a row are bright, as bits. */
static u32 mask_of(const u8 *row)
{
    u32 mask = 0;
    for (u32 x = 0; x < 32; x++)
        mask |= (u32)(row[x] >= out.threshold) << x;
    return mask;
}

int main(void)
{
    expose();
    for (u32 y = 0; y < HEIGHT; y++)
        for (u32 x = 0; x < WIDTH; x++)
            out.histogram[band[y][x]]++;
    out.threshold = upper_quarter();
    for (u32 y = 0; y < HEIGHT; y++) {
        u32 mask = mask_of(band[y]);
        out.fibres += runs_in(band[y]);
        out.first_bright[y] = first_one(mask);
        out.last_bright[y] = last_one(mask);
    }
    return out.fibres;
}
