/* Shifts (3.3.7). Counts above 31 and the sign of a right shift are this machine's own rules. */
#define CHECK(number, condition) do { if (!(condition)) return number; } while (0)

int count = 4;
unsigned char small = 0x81;
signed char low = -128;

unsigned left(unsigned a, int n) { return a << n; }
int right(int a, int n) { return a >> n; }
unsigned rotated(unsigned a, int n) { return a << n | a >> (32 - n); }

int main(void)
{
    unsigned u = 0x80000001;
    int i = -16, n;
    short s = -1;

    CHECK(1, 1 << 31 < 0 && 1u << 31 == 2147483648U && 1 << 0 == 1);
    CHECK(2, i >> 2 == -4 && i >> 31 == -1 && (unsigned)i >> 28 == 15);
    CHECK(3, u >> 31 == 1 && u << 1 == 2 && u << 31 == 0x80000000);
    CHECK(4, small << 1 == 0x102 && small >> 1 == 0x40 && low >> 1 == -64 && low << 1 == -256);
    CHECK(5, (unsigned char)(small << 1) == 2);
    CHECK(6, s >> 1 == -1 && (unsigned short)s >> 1 == 32767 && (unsigned short)s << 16 == -65536);
    CHECK(7, left(1, count) == 16 && right(-1024, count) == -64);
    CHECK(8, rotated(0x12345678, 8) == 0x34567812 && rotated(0x80000000, 1) == 1);
    for (n = 0; n < 32; n++)
        CHECK(9, left(1, n) >> n == 1 && right(-1, n) == -1);
    CHECK(10, left(5, 32) == 5 && left(5, 33) == 10 && right(-8, 35) == -1 && left(1, -1) == 0x80000000);
    small <<= 1;
    CHECK(11, small == 2);
    small = 255;
    small >>= 3;
    CHECK(12, small == 31);
    low >>= 7;
    CHECK(13, low == -1);
    i <<= 28;
    CHECK(14, i == 0);
    i = -1;
    i >>= 1u;
    CHECK(15, i == -1);
    CHECK(16, 1 << 2 + 1 == 8 && 16 >> 2 - 1 == 8 && (1 << 2) + 1 == 5);
    CHECK(17, 1 << 2 << 3 == 32 && 256 >> 2 >> 3 == 8);
    CHECK(18, -1 >> 1ul == -1 && sizeof((char)1 << 1L) == 4 && (s << 1u) < 0);
    CHECK(19, (1 << 3 == 8) == 1 && (6 & 1 << 1) == 2);
    s = 0x4000;
    s <<= 1;
    CHECK(20, s == -32768);
    u = 40;
    CHECK(21, (1 << u) == 256 && 1 << (char)3 == 8);
    return 0;
}
