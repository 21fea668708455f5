/* Compound assignments: the sum is made in the common type, and converted (3.3.16.2). */
#define CHECK(number, condition) do { if (!(condition)) return number; } while (0)

int calls;
int list[4] = { 1, 2, 3, 4 };
int *place(int i) { calls++; return list + i; }
struct Mixed { char c; unsigned char uc; short s; unsigned short us; } m;

int main(void)
{
    char c = 0;
    signed char sc = 100;
    unsigned char uc = 200;
    short s = 30000;
    unsigned short us = 5;
    int i = 7, j, *p = list;
    unsigned u = 7;
    long l = -7;
    char text[3];

    CHECK(1, (c += 300) == 44 && c == 44 && (c -= 200) == 100 && (c *= 3) == 44);
    CHECK(2, (sc += sc) == -56 && (sc /= 2) == -28 && (sc %= 10) == -8 && (sc <<= 4) == -128 && (sc >>= 3) == -16);
    CHECK(3, (uc += 100) == 44 && (uc -= 45) == 255 && (uc *= uc) == 1 && (uc = 200, uc <<= 1) == 144 && (uc >>= 4) == 9);
    CHECK(4, (s += s) == -5536 && (s -= 40000) == 20000 && (s *= 4) == 14464 && (s ^= 0xffff) == -14465);
    CHECK(5, (us -= 6) == 65535 && (us += 2) == 1 && (us |= -1) == 65535 && (us &= 0x10ff) == 0x10ff && (us <<= 8) == 0xff00);
    c = -1;
    CHECK(6, (c &= 0xf0) == -16 && (c |= 0x10f) == -1 && (c ^= 255) == 0);
    CHECK(7, (i /= -2) == -3 && (i *= -5) == 15 && (i %= -4) == 3 && (i <<= 3) == 24 && (i >>= 1) == 12);
    i = -7;
    CHECK(8, (i /= 2u) == 2147483644);
    i = -7;
    CHECK(9, (i %= 4u) == 1 && (u -= 8) == 4294967295U && (u /= 2) == 2147483647 && (u *= -1) == 2147483649U);
    CHECK(10, (l /= 2) == -3 && (l *= 5u) == -15 && (l >>= 1u) == -8 && (l += 'a') == 89);
    uc = 255;
    i = uc += 1;
    CHECK(11, i == 0 && uc == 0);
    c = 100;
    i = (c += 100) + 1000;
    CHECK(12, i == 944);
    i = 1;
    i += i += i += 1;
    j = i;
    CHECK(13, j == 4);
    i = j = 10;
    i -= j -= i -= 3;
    CHECK(14, j == 3 && i == 7);
    i = 4;
    *place(1) += 10;
    ++*place(1);
    CHECK(15, calls == 2 && list[1] == 13);
    list[i++ & 3] *= 7;
    CHECK(16, i == 5 && list[0] == 7);
    *p++ += 1;
    *p-- -= 3;
    CHECK(17, p == list && list[0] == 8 && list[1] == 10);
    p += 2;
    p -= -1;
    CHECK(18, p == list + 3 && *(p -= 2) == 10 && (p += list[2] - 2) == &list[2]);
    m.c += 200;
    m.uc -= 1;
    m.s -= 32769;
    m.us += -1;
    CHECK(19, m.c == -56 && m.uc == 255 && m.s == 32767 && m.us == 65535);
    text[0] = text[1] = text[2] = 120;
    text[1] += 20;
    CHECK(20, text[0] == 120 && text[1] == -116 && text[2] == 120);
    i = 5;
    i += i++ == 5;
    CHECK(21, i == 6);
    c = 1;
    c <<= 7;
    CHECK(22, c == -128 && (c >>= 7) == -1);
    uc = 3;
    uc /= -1;
    CHECK(23, uc == 253 && (uc %= 100) == 53 && (uc += '\377') == 52);
    u = 1;
    CHECK(24, (u <<= 31) == 2147483648U && (u >>= 31) == 1 && (u -= 2) > 0);
    s = -1;
    CHECK(25, (s >>= 1) == -1 && (s /= 2) == 0 && (us = 65535, us >>= 1) == 32767 && (us *= us) == 1);
    return 0;
}
