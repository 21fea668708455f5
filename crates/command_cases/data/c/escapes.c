/* Escapes in character constants and strings (3.1.3.4, 3.1.4). */
#define CHECK(number, condition) do { if (!(condition)) return number; } while (0)

char all[] = "\a\b\t\n\v\f\r\"\'\?\\";
char octals[] = "\0\1\12\123\1234\18\377";
char hexes[] = "\x1\x41\xff" "f\x0f";

int main(void)
{
    CHECK(1, '\a' == 7 && '\b' == 8 && '\t' == 9 && '\n' == 10 && '\v' == 11 && '\f' == 12 && '\r' == 13);
    CHECK(2, '\'' == 39 && '"' == 34 && '\"' == 34 && '\\' == 92 && '\?' == 63 && '?' == 63);
    CHECK(3, '\0' == 0 && '\7' == 7 && '\12' == 10 && '\101' == 'A' && '\177' == 127);
    CHECK(4, '\x0' == 0 && '\xa' == 10 && '\xA' == 10 && '\x41' == 'A' && '\x7f' == 127 && '\x041' == 'A');
    CHECK(5, '\200' == -128 && '\377' == -1 && '\xff' == -1 && '\x80' == -128 && '\376' < '\377');
    CHECK(6, sizeof all == 12 && all[0] == 7 && all[3] == 10 && all[6] == 13 && all[7] == '"' && all[8] == '\'' && all[9] == '?' && all[10] == '\\');
    CHECK(7, sizeof octals == 10 && octals[0] == 0 && octals[1] == 1 && octals[2] == 10 && octals[3] == 'S' && octals[4] == 'S' && octals[5] == '4');
    CHECK(8, octals[6] == 1 && octals[7] == '8' && octals[8] == -1 && octals[9] == 0);
    CHECK(9, sizeof hexes == 6 && hexes[0] == 1 && hexes[1] == 'A' && hexes[2] == -1 && hexes[3] == 'f' && hexes[4] == 15);
    CHECK(10, sizeof '\n' == 4 && sizeof "\n" == 2 && sizeof "\\n" == 3 && "\\n"[1] == 'n');
    CHECK(11, (unsigned char)'\377' == 255 && '\377' != 255 && "\377"[0] == '\377' && (unsigned char)"\x80"[0] == 0x80);
    CHECK(12, "\x12" "3"[0] == 18 && sizeof "\x12" "3" == 3 && ("\1" "2")[1] == '2');
    CHECK(13, 'A' == 65 && 'a' == 97 && '0' == 48 && ' ' == 32 && '~' == 126 && '9' - '0' == 9 && '/' + 1 == '0');
    CHECK(14, '\60' == '0' && '\060' == '0' && "\60\0601"[1] == '0' && "\60\0601"[2] == '1');
    CHECK(15, "/* no comment */"[1] == '*' && sizeof "/**/" == 5 && '/' /* a comment */ == 47 && "//"[1] == '/');
    CHECK(16, "one\
 line"[3] == ' ' && sizeof "a\
b" == 3);
    return 0;
}
