/* CRC-32 (IEEE 802.3) of the check string bit by bit, and of a band of 4,096 bytes by a table. */
#include "board.h"

#define POLYNOMIAL 0xedb88320u
#define BAND 4096

OUT struct {
    u32 of_check;
    u32 of_band;
} out;

static u32 table[256];
static u8 band[BAND];

static u32 shift8(u32 crc)
{
    for (int bit = 0; bit < 8; bit++)
        crc = crc & 1 ? crc >> 1 ^ POLYNOMIAL : crc >> 1;
    return crc;
}

static u32 by_bits(const u8 *bytes, u32 length)
{
    u32 crc = ~0u;
    for (u32 i = 0; i < length; i++)
        crc = shift8(crc ^ bytes[i]);
    return ~crc;
}

static u32 by_table(const u8 *bytes, u32 length)
{
    u32 crc = ~0u;
    for (u32 i = 0; i < length; i++)
        crc = crc >> 8 ^ table[(crc ^ bytes[i]) & 0xff];
    return ~crc;
}

int main(void)
{
    u32 state = 1;
    for (u32 i = 0; i < 256; i++)
        table[i] = shift8(i);
    for (u32 i = 0; i < BAND; i++)
        band[i] = next(&state) >> 24;
    out.of_check = by_bits((const u8 *)"123456789", 9);
    out.of_band = by_table(band, BAND);
    return out.of_check;
}
