/* What the programs here share: system calls, and numbers in and out. */
static long call(long number, long a, long b, long c)
{
    register long r0 __asm__("$0") = number;
    register long r16 __asm__("$16") = a;
    register long r17 __asm__("$17") = b;
    register long r18 __asm__("$18") = c;
    register long r19 __asm__("$19");
    __asm__ volatile("callsys" : "+r"(r0), "=r"(r19) : "r"(r16), "r"(r17), "r"(r18) : "memory");
    return r19 ? -r0 : r0;
}

static char input[4096];
static long length;

static void read_input(void)
{
    length = call(3, 0, (long)input, sizeof input);
}

static void put(const char *text, long size)
{
    call(4, 1, (long)text, size);
}

static void print(long value, char end)
{
    char text[24], *at = text + sizeof text;
    unsigned long rest = value < 0 ? 0 - (unsigned long)value : (unsigned long)value;

    *--at = end;
    do
        *--at = '0' + rest % 10;
    while (rest /= 10);
    if (value < 0)
        *--at = '-';
    put(at, text + sizeof text - at);
}
