/* A name and a number on a line. */
#include "three.h"

static char text[80];
static long many;

long lines(void)
{
    return many;
}

void print(const char *name, long value)
{
    char *at = text + sizeof text;
    unsigned long rest = value < 0 ? 0 - (unsigned long)value : (unsigned long)value;
    long length = 0;

    *--at = '\n';
    do
        *--at = '0' + rest % 10;
    while (rest /= 10);
    if (value < 0)
        *--at = '-';
    *--at = ' ';
    while (name[length])
        length++;
    while (length)
        *--at = name[--length];
    call(4, 1, (long)at, text + sizeof text - at);
    many++;
}
