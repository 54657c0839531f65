/* Sorts numbers in a heap that grows, by a recursive quicksort, and looks for some of them. */
#include "user.h"

#define COUNT 640

static u32 next_random(u32 *state)
{
    *state = *state * 1664525 + 1013904223;
    return *state >> 8;
}

static NOINLINE void sort(u32 *first, u32 *last)
{
    if (last - first < 1)
        return;
    u32 pivot = first[(last - first) / 2], *low = first, *high = last;
    while (low <= high) {
        while (*low < pivot)
            low++;
        while (*high > pivot)
            high--;
        if (low <= high) {
            u32 kept = *low;
            *low++ = *high;
            *high-- = kept;
        }
    }
    sort(first, high);
    sort(low, last);
}

static NOINLINE u32 *find(u32 *numbers, u32 wanted)
{
    u32 *low = numbers, *high = numbers + COUNT;
    while (low + 1 < high) {
        u32 *middle = low + (high - low) / 2;
        if (*middle <= wanted)
            low = middle;
        else
            high = middle;
    }
    return low;
}

int main(void)
{
    u32 *numbers = (u32 *)call(GROW, 8192, 0), state = 12345;
    u64 sum = 0, sorted = 0;
    for (u32 i = 0; i < COUNT; i++)
        sum += numbers[i] = next_random(&state);
    sort(numbers, numbers + COUNT - 1);
    for (u32 i = 0; i < COUNT; i++) {
        if (i && numbers[i - 1] > numbers[i])
            return 1;
        sorted += numbers[i];
    }
    if (sorted != sum)
        return 2;
    state = 12345;
    for (u32 i = 0; i < 40; i++) {
        u32 wanted = next_random(&state);
        if (*find(numbers, wanted) != wanted)
            return 3;
    }
    say("sorted\n");
    return 0;
}
