/* Splits each number of the input into its primes: divisions by numbers that aren't known, so with calls of __remq and
   __divq, and a switch. */
#include "io.h"

static const char *const names[] = { "prime", "square", "product of two", "product of many" };

static const char *name(int factors, int distinct)
{
    switch (factors * 2 + (distinct > 1)) {
    case 0: return "unit";
    case 2: return names[0];
    case 4: return names[1];
    case 5: return names[2];
    default: return names[3];
    }
}

static void split(long n)
{
    int factors = 0, distinct = 0;

    print(n, ':');
    for (long p = 2; p * p <= n; p++) {
        if (n % p == 0)
            distinct++;
        while (n % p == 0) {
            put(" ", 1);
            print(p, ' ');
            n /= p;
            factors++;
        }
    }
    if (n > 1) {
        put(" ", 1);
        print(n, ' ');
        factors++;
        distinct++;
    }
    const char *said = name(factors, distinct);
    long size = 0;
    while (said[size])
        size++;
    put(said, size);
    put("\n", 1);
}

int main(void)
{
    long value = 0;
    int inside = 0, count = 0;

    read_input();
    for (long i = 0; i <= length; i++) {
        char c = i < length ? input[i] : '\n';
        if (c >= '0' && c <= '9') {
            value = value * 10 + (c - '0');
            inside = 1;
        } else if (inside) {
            split(value);
            count++;
            value = inside = 0;
        }
    }
    return count;
}
