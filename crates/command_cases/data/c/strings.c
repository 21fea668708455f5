/* String literals (3.1.4), `sizeof` of them, and arrays that they initialise (3.5.7). */
#define CHECK(number, condition) do { if (!(condition)) return number; } while (0)

char open[] = "hello", exact[5] = "world", longer[8] = "abc", braced[] = { "xy" };
char joined[] = "one" " " "two" "";
char *pointer = "pointer", *list[] = { "a", "bc", "" };
char rows[3][4] = { "abc", "abcd", "" };
unsigned char bytes[] = "\200\377";
char embedded[] = "a\0b";
struct Named { char name[4]; char *text; int n; } named[] = { { "ab", "cdef", 1 }, { "wxyz", "", 2 } };

int length(char *s) { int n = 0; while (s[n]) n++; return n; }
int same(char *a, char *b) { while (*a && *a == *b) a++, b++; return *a == *b; }
void copy(char *to, char *from) { while (*to++ = *from++) ; }
char digit(int n) { return "0123456789abcdef"[n & 15]; }
char *word(int n) { return n > 2 ? "many" : n == 2 ? "two" : n ? "one" : "none"; }

int main(void)
{
    char local[10] = "local", other[] = "o" "ther";
    char *p;
    int i;

    CHECK(1, sizeof open == 6 && sizeof exact == 5 && sizeof longer == 8 && sizeof braced == 3 && sizeof joined == 8);
    CHECK(2, sizeof "" == 1 && sizeof "abc" == 4 && sizeof "a" "b" == 3 && sizeof "\n\t\0" == 4 && sizeof "\\" == 2);
    CHECK(3, length(open) == 5 && open[4] == 'o' && open[5] == 0 && exact[4] == 'd');
    CHECK(4, longer[2] == 'c' && longer[3] == 0 && longer[7] == 0 && braced[1] == 'y' && braced[2] == 0);
    CHECK(5, same(joined, "one two") && !same(joined, "one tw") && !same("a", "ab") && same("", ""));
    CHECK(6, pointer[0] == 'p' && *(pointer + 6) == 'r' && pointer[7] == 0 && sizeof pointer == sizeof(char *));
    CHECK(7, sizeof list / sizeof list[0] == 3 && list[1][1] == 'c' && *list[2] == 0 && **list == 'a');
    CHECK(8, rows[0][3] == 0 && rows[1][3] == 'd' && rows[2][0] == 0 && rows[2][3] == 0 && sizeof rows == 12);
    CHECK(9, bytes[0] == 128 && bytes[1] == 255 && bytes[2] == 0 && sizeof bytes == 3 && "\377"[0] == -1);
    CHECK(10, sizeof embedded == 4 && embedded[2] == 'b' && length(embedded) == 1);
    CHECK(11, named[0].name[2] == 0 && named[1].name[3] == 'z' && named[0].text[3] == 'f' && *named[1].text == 0 && named[1].n == 2);
    CHECK(12, "abc"[1] == 'b' && 2["abc"] == 'c' && *"xyz" == 'x' && *("xyz" + 2) == 'z' && "abc"[3] == 0);
    CHECK(13, digit(0) == '0' && digit(10) == 'a' && digit(31) == 'f' && digit(-1) == 'f');
    CHECK(14, same(word(0), "none") && same(word(1), "one") && same(word(2), "two") && same(word(9), "many"));
    copy(local, other);
    CHECK(15, same(local, "other") && sizeof other == 6 && local[6] == 0 && local[9] == 0);
    local[0] = 'O';
    CHECK(16, same(local, "Other") && same(other, "other"));
    for (p = "aeiou", i = 0; *p; ++p)
        i = i * 5 + *p - 'a';
    CHECK(17, i == ((4 * 5 + 8) * 5 + 14) * 5 + 20);
    p = "tail" + 1;
    CHECK(18, same(p, "ail") && p[-1] == 't');
    CHECK(19, ("x" ? 1 : 0) && !"x" == 0 && ("x" && 1));
    p = i ? "yes" : "no";
    CHECK(20, *p == 'y');
    return 0;
}
