/* Comparisons of numbers with and without signs, and the types of constants (3.1.3.2, 3.3.8, 3.3.9). */
#define CHECK(number, condition) do { if (!(condition)) return number; } while (0)

int least = -2147483647 - 1, most = 2147483647;
unsigned int top = 2147483648U;

int less(int a, int b) { return a < b; }
int below(unsigned a, unsigned b) { return a < b; }

int main(void)
{
    signed char c = -1;
    unsigned char uc = 255;
    short s = -1;
    unsigned short us = 65535;
    int i = -1;
    unsigned int ui = 1;
    long l = -1;
    unsigned long ul = 1;

    CHECK(1, !(i < ui) && i > ui && i != ui);
    CHECK(2, !(l < ul) && !(l < ui) && l >= ui);
    CHECK(3, c < uc && s < us && c == s && s == i && i == l);
    CHECK(4, c != uc && s != us && !(c > 1u ? 0 : 1));
    CHECK(5, least < most && !(most < least) && least < 0 && least < -2147483647);
    CHECK(6, !((unsigned)least < (unsigned)most) && top > most);
    CHECK(7, less(least, most) && less(-1, 0) && less(least, least + 1) && !less(most, most));
    CHECK(8, below(0, 1) && below(2147483647, 2147483648U) && !below(4294967295U, 0) && !below(-1, 0));
    CHECK(9, !(sizeof i < -1 ? 0 : 1));
    CHECK(10, 2147483648 > 0 && -2147483648 > 0 && 4294967295 > 0);
    CHECK(11, 0x7FFFFFFF > -1 && !(0x80000000 > -1) && 0xFFFFFFFF == -1 && 037777777777 == -1);
    CHECK(12, 0x80000000 > 0 && (int)0x80000000 < 0);
    CHECK(13, (1 < 2) == 1 && (2 < 1) == 0 && (1 < 2) + (3 != 4) + (5 == 5) == 3);
    CHECK(14, 3 > 2 > 1 == 0 && 1 < 0 < 1 && (5 == 5 == 1));
    CHECK(15, least <= least && least >= least && !(least < least) && !(least > least));
    CHECK(16, -(unsigned char)1 < 0 && -(unsigned)1 > 0);
    CHECK(17, (unsigned char)-1 == 255 && (unsigned short)-1 == 65535 && (unsigned)-1 == 4294967295U);
    CHECK(18, (char)255 == -1 && (short)65535 == -1 && (short)32768 < 0);
    CHECK(19, 'a' < 'b' && '\377' < 0 && '\200' < '\177');
    CHECK(20, (i < 0) != (ui < 0) && !(ui - 2 < 0) && ui - 2 > 100);
    CHECK(21, us > s && !(us < s) && us > (unsigned char)s);
    CHECK(22, ul * l == -1 && ul * l > 0);
    return 0;
}
