/* Character constants of several characters: big-endian numbers, as docs/TYPING.md says (3.1.3.4 leaves them open). */
#define CHECK(number, condition) do { if (!(condition)) return number; } while (0)

long type = 'TEXT', creator = 'ttxt';
enum { resource = 'MENU', mark = '\0\0\0\1' };
char narrow = 'ab';
short two = 'xy';

int known(long it)
{
    switch (it) {
    case 'TEXT': return 1;
    case 'PICT': return 2;
    case 'ab': return 3;
    case '\377\377\377\377': return 4;
    }
    return 0;
}

int main(void)
{
    char parts[4];
    int i;

    CHECK(1, type == 0x54455854 && creator == 0x74747874 && type != creator);
    CHECK(2, 'ab' == 'a' * 256 + 'b' && 'abc' == 0x616263 && 'abcd' == 0x61626364);
    CHECK(3, resource == 0x4D454E55 && mark == 1);
    CHECK(4, narrow == 'b' && two == 0x7879);
    CHECK(5, '\377a' == 0xff61 && 'a\377' == 0x61ff && '\0a' == 'a' && 'a\0' == 'a' << 8);
    CHECK(6, '\377\377\377\377' == -1 && '\200\0\0\0' < 0 && '\200\0\0' > 0 && '\x7f\377' == 32767);
    CHECK(7, known('TEXT') == 1 && known('PICT') == 2 && known(24930) == 3 && known(-1) == 4 && known('text') == 0);
    CHECK(8, sizeof 'ab' == 4 && sizeof 'abcd' == 4);
    for (i = 0; i < 4; i++)
        parts[i] = type >> (24 - 8 * i);
    CHECK(9, parts[0] == 'T' && parts[1] == 'E' && parts[2] == 'X' && parts[3] == 'T');
    CHECK(10, '\'\'' == 0x2727 && '""' == 0x2222 && '\\\\' == 0x5c5c && '\n\r' == 0x0a0d);
    CHECK(11, (char)'a\200' == -128 && (unsigned char)'xyz' == 'z' && (short)'abcd' == 0x6364);
#if 'ab' == 24930
    i = 5;
#endif
    CHECK(12, i == 5);
    return 0;
}
