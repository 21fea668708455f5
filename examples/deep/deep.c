/* Adds the numbers up to n by recursion. A run has at most 10000 calls at one time, that of main
   too. So Sum(9998), which needs 9999 calls, is the largest sum that it can make. */
#include "mac.h"
#include "print.h"

static long Sum(long n)
{
    return n == 0 ? 0 : n + Sum(n - 1);
}

int main(void)
{
    PrintNumber(Sum(9998));
    putchar('\n');
    PrintNumber(Sum(9999));
    putchar('\n');
    return 0;
}
