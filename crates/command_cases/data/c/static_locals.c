/* Static variables of functions keep their values, and start with constants (3.1.2.4, 3.5.7). */
#define CHECK(number, condition) do { if (!(condition)) return number; } while (0)

int next(void) { static int n; return ++n; }
int other(void) { static int n = 100; return n++; }
char wrapping(void) { static char c = 126; return c++; }
int *address(int i) { static int kept[3] = { 7, 8 }; return kept + i; }

int twice(int which)
{
    static int n = 10;
    if (which) {
        static int n = 20;
        return ++n;
    }
    return ++n;
}

int deep(int d)
{
    static int calls = 0, most;
    int here = ++calls;
    if (d > most)
        most = d;
    if (d > 0)
        deep(d - 1);
    return most * 100 + calls * 10 + (here == calls);
}

char *text(int c)
{
    static char buffer[4] = "ab";
    static char *end = buffer + 2;
    *end++ = c;
    if (end == buffer + 3)
        end = buffer;
    return buffer;
}

struct Count { int n; char name[3]; };
struct Count *counted(void) { static struct Count it = { 5, "xy" }; it.n += 2; return &it; }

static int shared = 3;
int hidden(void) { static int shared = 30; return shared++; }

int main(void)
{
    int i, *p;
    char *s;
    static int in_main = -1, table[] = { 1, 2, 3 };

    CHECK(1, next() == 1 && next() == 2 && next() == 3);
    CHECK(2, other() == 100 && other() == 101 && next() == 4);
    CHECK(3, wrapping() == 126 && wrapping() == 127 && wrapping() == -128);
    p = address(2);
    CHECK(4, *p == 0 && *address(0) == 7);
    *p = 9;
    ++*address(1);
    CHECK(5, *address(2) == 9 && p[-1] == 9 && address(2) == p);
    CHECK(6, twice(0) == 11 && twice(1) == 21 && twice(0) == 12 && twice(1) == 22);
    CHECK(7, deep(3) == 340 && deep(0) == 351);
    s = text('c');
    CHECK(8, s[0] == 'a' && s[2] == 'c' && text('d') == s && s[0] == 'd' && s[1] == 'b');
    CHECK(9, counted()->n == 7 && counted()->n == 9 && counted()->name[1] == 'y');
    CHECK(10, hidden() == 30 && hidden() == 31 && shared == 3);
    for (i = 0; i < 3; i++) {
        static int in_block;
        int fresh = 0;
        in_block += table[i];
        fresh += table[i];
        CHECK(11, in_block == (i + 1) * (i + 2) / 2 && fresh == i + 1);
    }
    CHECK(12, in_main++ == -1 && in_main == 0 && sizeof table == 12);
    return 0;
}
