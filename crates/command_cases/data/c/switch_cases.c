/* Which case a switch goes to (3.6.4.2). */
#define CHECK(number, condition) do { if (!(condition)) return number; } while (0)

enum Colour { red = -1, green, blue = 10 };
int calls;

int counted(int i) { calls++; return i; }

int plain(int i)
{
    switch (i) {
    case 0: return 10;
    case 1:
    case 2: return 20;
    case -1: return 30;
    case 'a': return 40;
    case 2147483647: return 50;
    case -2147483647 - 1: return 60;
    case 3 * 4 + 1: return 70;
    default: return 80;
    }
}

int falling(int i)
{
    int t = 0;
    switch (i) {
    case 1: t += 1;
    case 2: t += 10;
    default: t += 100;
    case 3: t += 1000; break;
    case 4: t += 10000;
    }
    return t;
}

int of_char(char c)
{
    switch (c) {
    case '\377': return 1;
    case 127: return 2;
    case 200: return 3;
    }
    return 4;
}

int of_uchar(unsigned char c)
{
    switch (c) {
    case -1: return 1;
    case 255: return 2;
    case 200: return 3;
    }
    return 4;
}

int of_unsigned(unsigned u)
{
    switch (u) {
    case -1: return 1;
    case 0x80000000: return 2;
    case 5L: return 3;
    case (char)300: return 4;
    }
    return 5;
}

int of_short(short s)
{
    switch (s) {
    case 65535: return 1;
    case -1: return 2;
    case sizeof(short): return 3;
    }
    return 4;
}

int of_long(unsigned long l)
{
    switch (l + 1) {
    case 0: return 1;
    case 4294967295: return 2;
    default: break;
    }
    return 3;
}

char *of_enum(enum Colour c)
{
    switch (c) {
    default: return "none";
    case red: return "red";
    case green: return "green";
    case blue: return "blue";
    }
}

int nested(int a, int b)
{
    int t = 0;
    switch (a) {
    case 1:
        switch (b) {
        case 1: t = 11; break;
        case 2: t = 12;
        }
        t += 100;
        break;
    case 2: switch (b) { default: return 22; case 1: break; }
    default: t = 33;
    }
    return t;
}

int main(void)
{
    int i = 5, t = 0;

    CHECK(1, plain(0) == 10 && plain(1) == 20 && plain(2) == 20 && plain(3) == 80 && plain(-1) == 30);
    CHECK(2, plain(97) == 40 && plain(2147483647) == 50 && plain(-2147483647 - 1) == 60 && plain(13) == 70);
    CHECK(3, falling(1) == 1111 && falling(2) == 1110 && falling(3) == 1000 && falling(4) == 10000 && falling(5) == 1100);
    CHECK(4, of_char(-1) == 1 && of_char(127) == 2 && of_char(200) == 4 && of_char(255) == 1);
    CHECK(5, of_uchar(255) == 2 && of_uchar(-1) == 2 && of_uchar(200) == 3 && of_uchar(1) == 4);
    CHECK(6, of_unsigned(4294967295U) == 1 && of_unsigned(-1) == 1 && of_unsigned(0x80000000) == 2 && of_unsigned(5) == 3 && of_unsigned(44) == 4);
    CHECK(7, of_short(-1) == 2 && of_short(65535) == 2 && of_short(2) == 3);
    CHECK(8, of_long(4294967295U) == 1 && of_long(-2) == 2 && of_long(7) == 3);
    CHECK(9, of_enum(red)[0] == 'r' && of_enum(blue)[3] == 'e' && of_enum(5)[0] == 'n' && *of_enum(0) == 'g');
    CHECK(10, nested(1, 1) == 111 && nested(1, 2) == 112 && nested(1, 3) == 100 && nested(2, 1) == 33 && nested(2, 2) == 22 && nested(3, 0) == 33);
    switch (counted(3)) {
    case 1: case 2: t = 1; break;
    case 3: t = 3; break;
    case 4: t = 4;
    }
    CHECK(11, calls == 1 && t == 3);
    switch (i++) { case 5: t = i; }
    CHECK(12, t == 6 && i == 6);
    switch (i) { }
    switch (i) { default: ; }
    switch (counted(1)) { case 2: t = 0; }
    CHECK(13, calls == 2 && t == 6);
    switch (i == 6) { case 1: t = 7; break; case 0: t = 8; }
    CHECK(14, t == 7);
    switch (i, 2) { case 6: t = 1; break; case 2: t = 2; }
    CHECK(15, t == 2);
    return 0;
}
