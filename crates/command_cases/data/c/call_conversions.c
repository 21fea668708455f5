/* Arguments and results are converted as by assignment (3.3.2.2, 3.6.6.4). */
#define CHECK(number, condition) do { if (!(condition)) return number; } while (0)

int from_char(char c) { return c; }
int from_uchar(unsigned char c) { return c; }
int from_short(short s) { return s; }
int from_ushort(unsigned short s) { return s; }
unsigned from_int(int i) { return i; }
char to_char(int i) { return i; }
unsigned char to_uchar(int i) { return i; }
short to_short(int i) { return i; }
unsigned short to_ushort(long i) { return i; }
unsigned to_unsigned(signed char c) { return c; }
long to_long(unsigned short s) { return -s; }
int kept(char c, short s, unsigned char uc) { c += 100; s *= 2; uc -= 1; return c + s + uc; }
int changed(char c) { c = c + 1; c++; return c; }
int by_address(char c) { char *p = &c; *p += 200; return c; }
char first(char c, char d) { if (c > d) return c - d + 200; return d; }
void nothing(short s) { s = 3; }
int old_style() { return 258; }
char narrowed(void) { return old_style(); }

int main(void)
{
    int i = 511;

    CHECK(1, from_char(300) == 44 && from_char(255) == -1 && from_char(-129) == 127);
    CHECK(2, from_uchar(300) == 44 && from_uchar(-1) == 255);
    CHECK(3, from_short(40000) == -25536 && from_short(1 << 16) == 0);
    CHECK(4, from_ushort(-1) == 65535 && from_ushort(65537) == 1);
    CHECK(5, from_int(4294967295U) == 4294967295U);
    CHECK(6, to_char(200) == -56 && to_char(256) == 0 && to_char(i) == -1);
    CHECK(7, to_uchar(-1) == 255 && to_uchar(i) == 255);
    CHECK(8, to_short(32768) == -32768 && to_short(-32769) == 32767);
    CHECK(9, to_ushort(-1) == 65535 && to_ushort(65536) == 0);
    CHECK(10, to_unsigned(-1) == 4294967295U && to_unsigned(128) == 4294967168U);
    CHECK(11, to_long(65535) == -65535 && to_long(-1) == -65535);
    CHECK(12, kept(100, 20000, 0) == -56 + -25536 + 255);
    CHECK(13, changed(126) == -128 && changed(-2) == 0);
    CHECK(14, by_address(100) == 44 && by_address(56) == 0);
    CHECK(15, first(3, 2) == -55 && first(2, 3) == 3 && first(258, 3) == 3);
    nothing(i);
    CHECK(16, i == 511);
    CHECK(17, narrowed() == 2 && (unsigned char)to_char(255) == 255);
    CHECK(18, from_char(to_uchar(from_short(-1))) == -1);
    CHECK(19, from_uchar(to_char(200)) == 200 && from_ushort(to_char(200)) == 65480);
    CHECK(20, sizeof to_char(1) == 1 && sizeof to_short(1) == 2 && sizeof old_style() == 4);
    CHECK(21, to_char('\377') < 0 && to_uchar('\377') > 0);
    return 0;
}
