/* What the three parts call of each other, and the system. */
void note(long value);
long count(void);
long sum(void);
long product(void);
void print(const char *name, long value);
long lines(void);

static inline long call(long number, long a, long b, long c)
{
    register long r0 __asm__("$0") = number;
    register long r16 __asm__("$16") = a;
    register long r17 __asm__("$17") = b;
    register long r18 __asm__("$18") = c;
    register long r19 __asm__("$19");
    __asm__ volatile("callsys" : "+r"(r0), "=r"(r19) : "r"(r16), "r"(r17), "r"(r18) : "memory");
    return r19 ? -r0 : r0;
}
