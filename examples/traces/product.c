/*
 * The product of two matrices, c = a b, for a trace: with -DIKJ the inner loop goes along a row of b, without it down a column. A row
 * takes 256 bytes, as in a part of a larger matrix, so with pages of 256 bytes each row is a page. The program has no C library and no
 * dynamic loader, so that every touch of data that a trace has is its own.
 *
 *     gcc -O1 -static -nostdlib -ffreestanding [-DIKJ] product.c -o product
 */
enum { N = 5, ROW = 256 / sizeof(long) };

_Alignas(256) long a[N][ROW], b[N][ROW], c[N][ROW];

static void product(void)
{
#ifdef IKJ
    for (int i = 0; i < N; i++)
        for (int k = 0; k < N; k++)
            for (int j = 0; j < N; j++)
                c[i][j] += a[i][k] * b[k][j];
#else
    for (int i = 0; i < N; i++)
        for (int j = 0; j < N; j++)
            for (int k = 0; k < N; k++)
                c[i][j] += a[i][k] * b[k][j];
#endif
}

/* Linux, x86-64: system call 60 ends the program; "memory" has the compiler store c before. */
void _start(void)
{
    product();
    __asm__ volatile("syscall" : : "a"(60L), "D"(0L) : "memory");
    __builtin_unreachable();
}
