/* What the examples print with. */
#include "mac.h"
#include "print.h"

void Print(const char *text)
{
    while (*text)
        putchar(*text++);
}

void PrintNumber(long n)
{
    if (n < 0) {
        putchar('-');
        n = -n;
    }
    if (n > 9)
        PrintNumber(n / 10);
    putchar('0' + n % 10);
}
