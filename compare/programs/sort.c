/* Quicksort of 1,024 signed words and shellsort of 512 signed halfwords. */
#include "board.h"

#define WORDS 1024
#define HALVES 512

OUT struct {
    s32 words[WORDS];
    s16 halves[HALVES];
} out;

static void quicksort(s32 *first, s32 *last)
{
    while (first < last) {
        s32 pivot = first[(last - first) / 2];
        s32 *low = first, *high = last;
        while (low <= high) {
            while (*low < pivot)
                low++;
            while (*high > pivot)
                high--;
            if (low <= high) {
                s32 other = *low;
                *low++ = *high;
                *high-- = other;
            }
        }
        quicksort(first, high);
        first = low;
    }
}

static void shellsort(s16 *items, s32 count)
{
    for (s32 gap = count / 2; gap > 0; gap /= 2)
        for (s32 i = gap; i < count; i++) {
            s16 item = items[i];
            s32 j = i;
            for (; j >= gap && items[j - gap] > item; j -= gap)
                items[j] = items[j - gap];
            items[j] = item;
        }
}

int main(void)
{
    u32 state = 2, sum = 0;
    for (u32 i = 0; i < WORDS; i++)
        out.words[i] = next(&state);
    for (u32 i = 0; i < HALVES; i++)
        out.halves[i] = next(&state);
    quicksort(out.words, out.words + WORDS - 1);
    shellsort(out.halves, HALVES);
    for (u32 i = 0; i < WORDS; i++)
        sum += out.words[i];
    return sum;
}
