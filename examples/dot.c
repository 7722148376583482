/* The inner product of two vectors of quadwords, where an overflow traps. */
long dot(const long *a, const long *b, long n)
{
    long sum = 0;
    for (long i = 0; i < n; i++)
        sum += a[i] * b[i];
    return sum;
}
