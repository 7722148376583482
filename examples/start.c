/* Calls dot.c as a program without a library, and exits with its result. */
long dot(const long *, const long *, long);
static long a[] = {3, 1L << 62, 5}, b[] = {7, 4, 11};
void _start(void) {
    register long v0 asm("$0");
    register long a0 asm("$16");
    a0 = dot(a, b, 3);
    v0 = 1;
    asm volatile("call_pal 0x83" :: "r"(v0), "r"(a0));
}
