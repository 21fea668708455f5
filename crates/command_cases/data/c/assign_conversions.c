/* Conversions by assignment and by casts (3.2.1.2, 3.3.4, 3.3.16.1). */
#define CHECK(number, condition) do { if (!(condition)) return number; } while (0)

struct Mixed { char c; unsigned char uc; short s; unsigned short us; long l; } m;
char chars[3];
short shorts[2];

int main(void)
{
    char c;
    unsigned char uc;
    short s;
    unsigned short us;
    int i;
    unsigned u;
    long l;
    char *p = chars;
    short *q = &m.s;

    CHECK(1, (c = 300) == 44 && c == 44);
    CHECK(2, (c = 200) == -56 && c == -56);
    CHECK(3, (uc = -1) == 255 && (uc = 256) == 0 && (uc = -129) == 127);
    CHECK(4, (s = 65535) == -1 && (s = 32768) == -32768 && (s = 98304) == -32768);
    CHECK(5, (us = -1) == 65535 && (us = 65536) == 0 && (us = -32768) == 32768);
    CHECK(6, (u = -1) == 4294967295U && (i = 4294967295U) == -1 && (l = u) == -1);
    i = c = 511;
    CHECK(7, i == -1 && c == -1);
    l = uc = c;
    CHECK(8, l == 255);
    i = us = s = -2;
    CHECK(9, i == 65534 && s == -2);
    u = s = 40000;
    CHECK(10, u == 4294941760U);
    m.c = 128;
    m.uc = 1000;
    m.s = 1 << 15;
    m.us = ~0;
    m.l = 3000000000U;
    CHECK(11, m.c == -128 && m.uc == 232 && m.s == -32768 && m.us == 65535 && m.l < 0);
    chars[1] = 0x1234;
    CHECK(12, chars[1] == 0x34 && chars[0] == 0 && chars[2] == 0);
    p[2] = 255;
    CHECK(13, *(p + 2) == -1 && (unsigned char)p[2] == 255);
    *q = 70000;
    CHECK(14, m.s == 4464 && *q == 4464 && m.uc == 232 && m.us == 65535);
    shorts[1] = -70000;
    CHECK(15, shorts[1] == -4464 && shorts[0] == 0);
    CHECK(16, (char)0x180 == -128 && (unsigned char)0x180 == 128 && (short)0x18000 == -32768);
    CHECK(17, (int)(char)(unsigned char)255 == -1 && (int)(unsigned char)(char)255 == 255);
    CHECK(18, (unsigned)(char)-1 == 4294967295U && (unsigned)(unsigned char)-1 == 255 && (unsigned short)(char)-1 == 65535);
    CHECK(19, (long)(short)65535 == -1 && (unsigned long)(unsigned short)65535 == 65535);
    CHECK(20, -(char)128 == 128 && (char)-(char)128 == -128);
    i = (c = 1000) + 1;
    CHECK(21, i == -23);
    CHECK(22, (char)(i = 257) == 1 && i == 257);
    c = 'a' + 200;
    CHECK(23, c == 41 && (c = '\377') == -1);
    i = 5;
    i = (unsigned char)(i - 6);
    CHECK(24, i == 255);
    return 0;
}
