/* Products, quotients and remainders (3.3.5). A quotient is truncated toward 0 here. */
#define CHECK(number, condition) do { if (!(condition)) return number; } while (0)

int least = -2147483647 - 1, minus_one = -1;
int quotient(int a, int b) { return a / b; }
int rest(int a, int b) { return a % b; }
unsigned long over(unsigned long a, unsigned long b) { return a / b * b + a % b - a; }

int main(void)
{
    int a, b;
    unsigned u = 4294967290U;
    signed char c = -128;
    unsigned short us = 65535;

    CHECK(1, 7 / 2 == 3 && -7 / 2 == -3 && 7 / -2 == -3 && -7 / -2 == 3);
    CHECK(2, 7 % 2 == 1 && -7 % 2 == -1 && 7 % -2 == 1 && -7 % -2 == -1);
    CHECK(3, quotient(-7, 2) == -3 && quotient(7, -2) == -3 && rest(-7, 2) == -1 && rest(7, -2) == 1);
    CHECK(4, quotient(1, 3) == 0 && quotient(-1, 3) == 0 && rest(-1, 3) == -1 && rest(0, -5) == 0);
    for (a = -20; a <= 20; a++)
        for (b = -6; b <= 6; b++)
            if (b != 0)
                CHECK(5, a / b * b + a % b == a && a / b == -(-a / b) && a % b == a % -b);
    CHECK(6, quotient(least, minus_one) == least && rest(least, minus_one) == 0);
    CHECK(7, least / 2 == -1073741824 && least % 10 == -8 && least / least == 1 && least / 3 == -715827882);
    CHECK(8, u / 10 == 429496729 && u % 10 == 0 && u / -1 == 0 && u % -1 == u && -6 / u == 1);
    CHECK(9, (unsigned)-7 / 2 == 2147483644 && (unsigned)-7 % 7 == 4 && -7 / 2u == 2147483644);
    CHECK(10, c / -1 == 128 && c % 7 == -2 && us / us == 1 && us % 256 == 255 && -us / 2 == -32767);
    CHECK(11, over(4294967295U, 7) == 0 && over(3000000000U, 2147483648U) == 0 && over(5, 10) == 0);
    CHECK(12, 65536 * 65536 == 0 && 65535u * 65537u == 4294967295U && 46341 * 46341 < 0 && least * -1 == least);
    CHECK(13, 1000000 * 1000 == 1000000000 && 123456789 * 10 == 1234567890 && 123456789 * 100 == -539222988);
    CHECK(14, 2147483647 + 1 == least && least - 1 == 2147483647 && -least == least && u + 6 == 0 && 5u - 6u == 4294967295U);
    CHECK(15, 100 / 7 * 7 + 100 % 7 == 100 && 8 / 4 * 2 == 4 && 8 / (4 * 2) == 1 && 2 * 7 % 4 == 2);
    CHECK(16, (char)(c / -1) == -128 && (c / 2u) == 2147483584);
    CHECK(17, quotient(2147483647, least) == 0 && rest(2147483647, least) == 2147483647 && rest(least, 2147483647) == -1);
    CHECK(18, 'z' / 'a' == 1 && 'z' % 'a' == 25 && 1L / 2 == 0 && -9L % 4L == -1);
    return 0;
}
