/* Reads numbers, and prints how many they are, their sum, their product and their mean. Its parts are compiled apart. */
#include "three.h"

static char buffer[4096];

static long take(const char **at)
{
    long value = 0;

    while (**at >= '0' && **at <= '9')
        value = value * 10 + (*(*at)++ - '0');
    return value;
}

int main(void)
{
    const char *at = buffer;

    buffer[call(3, 0, (long)buffer, sizeof buffer - 1)] = 0;
    while (*at)
        if (*at >= '0' && *at <= '9')
            note(take(&at));
        else
            at++;
    print("numbers", count());
    print("sum", sum());
    print("product", product());
    if (count())
        print("mean", sum() / count());
    return lines();
}
