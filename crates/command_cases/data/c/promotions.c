/* Integral promotions and the common type of two operands (3.2.1.1, 3.2.1.5). */
#define CHECK(number, condition) do { if (!(condition)) return number; } while (0)

unsigned char uc = 255;
signed char sc = -128;
char c = -1;
unsigned short us = 65535;
short s = -32768;
unsigned int ui = 4294967295U;
unsigned long ul = 4294967295UL;

int main(void)
{
    unsigned char a = 200, b = 100;
    short t = 32767;

    CHECK(1, uc + 1 == 256);
    CHECK(2, ~uc == -256);
    CHECK(3, -sc == 128);
    CHECK(4, us + 1 == 65536);
    CHECK(5, -us == -65535);
    CHECK(6, us * us == -131071);
    CHECK(7, (unsigned)us * us == 4294836225U);
    CHECK(8, a + b == 300 && (unsigned char)(a + b) == 44);
    CHECK(9, a * b == 20000);
    CHECK(10, b - a == -100 && b - a < 0);
    CHECK(11, t + 1 == 32768 && -s == 32768);
    CHECK(12, sizeof(c + c) == 4 && sizeof c == 1 && sizeof +c == 4 && sizeof -s == 4 && sizeof ~uc == 4);
    CHECK(13, sizeof(1 ? c : c) == 4 && sizeof(c, c) == 1 && sizeof(c = 0) == 1 && sizeof c++ == 1);
    CHECK(14, c == -1);
    CHECK(15, (c << 8) == -256 && (uc << 8) == 65280);
    CHECK(16, uc >> 4 == 15 && c >> 4 == -1 && ~0u >> 31 == 1);
    CHECK(17, uc - us < 0);
    CHECK(18, uc - ui == 256 && (s - 1 < 0) && !(s - 1u < 0));
    CHECK(19, -1 + 0u == 4294967295U && -1 + 0u > 0);
    CHECK(20, -1 / 2u == 2147483647 && -1 / 2 == 0);
    CHECK(21, sc * sc == 16384 && sc * uc == -32640);
    CHECK(22, !uc == 0 && sizeof !uc == 4 && sizeof(uc == uc) == 4 && sizeof(uc && uc) == 4);
    CHECK(23, (ul + 1 == 0) && ul + c == 4294967294UL);
    CHECK(24, -1L < 1 && !(-1L < 1u) && !(-1 < 1ul) && -1L < us && (s < us));
    CHECK(25, (uc ^ c) == -256 && (uc | c) == -1 && (uc & c) == 255);
    CHECK(26, +s == -32768 && -(-s) == -32768);
    CHECK(27, 'a' + (char)200 == 41);
    CHECK(28, ui == -1 && us != (short)-1 && uc != (char)-1 && ul == -1);
    return 0;
}
