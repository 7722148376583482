/* Reads its input, and prints a checksum, a weighted sum and the number of bytes. Every signed sum and product is checked
   for overflow, as -ftrapv has it. */

static long call(long number, long a, long b, long c)
{
    register long r0 __asm__("$0") = number;
    register long r16 __asm__("$16") = a;
    register long r17 __asm__("$17") = b;
    register long r18 __asm__("$18") = c;
    register long r19 __asm__("$19");
    __asm__ volatile("callsys" : "+r"(r0), "=r"(r19) : "r"(r16), "r"(r17), "r"(r18) : "memory");
    return r19 ? -r0 : r0;
}

static unsigned char buffer[4096];
static const int weights[16] = { 3, 1, 4, 1, 5, 9, 2, 6, 5, 3, 5, 8, 9, 7, 9, 3 };

static void print(long value)
{
    char text[24], *at = text + sizeof text;
    unsigned long rest = value < 0 ? 0 - (unsigned long)value : (unsigned long)value;

    *--at = '\n';
    do
        *--at = '0' + rest % 10;
    while (rest /= 10);
    if (value < 0)
        *--at = '-';
    call(4, 1, (long)at, text + sizeof text - at);
}

int main(void)
{
    int checksum = 1;
    long weighted = 0, bytes = 0, n;

    while ((n = call(3, 0, (long)buffer, sizeof buffer)) > 0) {
        for (long i = 0; i < n; i++) {
            checksum = checksum * 31 + buffer[i];
            weighted += (long)weights[i % 16] * buffer[i];
        }
        bytes += n;
    }
    print(checksum);
    print(weighted);
    print(bytes);
    return 0;
}
