/* The numbers that were read. */
#include "three.h"

static long numbers[64];
static long many;

void note(long value)
{
    if (many < 64)
        numbers[many++] = value;
}

long count(void)
{
    return many;
}

long sum(void)
{
    long total = 0;

    for (long i = 0; i < many; i++)
        total += numbers[i];
    return total;
}

long product(void)
{
    long total = 1;

    for (long i = 0; i < many; i++)
        total *= numbers[i];
    return total;
}
