/* Variables of a block get their first values each time the block is entered (3.5.7, 3.6.2). */
#define CHECK(number, condition) do { if (!(condition)) return number; } while (0)

struct Pair { char a; long b; };
struct Pair shared = { 3, 4 };
int calls;
int counted(void) { return ++calls; }
struct Pair made(int n) { struct Pair it = { 1, 2 }; it.b += n; return it; }

int entered(int n)
{
    int array[4] = { 1, 2 }, t = 0, i;
    char text[6] = "ab";
    struct Pair pairs[2] = { { 5 }, { 6, 7 } };
    for (i = 0; i < 4; i++)
        t += array[i];
    for (i = 0; i < 6; i++)
        t += text[i] ? 10 : 0;
    t += pairs[0].a * 100 + pairs[0].b + pairs[1].b;
    array[3] = text[5] = pairs[0].b = 50;
    if (n > 0)
        t += entered(n - 1);
    return t;
}

int main(void)
{
    int a = 5, b = a + 1, c = (a = 9, b * 2), *p = &b, d = *p + a;
    char narrow = 300, x = narrow + 1, y = { 'y' };
    unsigned char wide = narrow - 100;
    struct Pair copy = shared, result = made(5), *q = &copy, third = *q;
    int first = counted(), second = counted(), i, t;

    CHECK(1, a == 9 && b == 6 && c == 12 && *p == 6 && d == 15);
    CHECK(2, narrow == 44 && x == 45 && y == 'y' && wide == 200);
    CHECK(3, copy.a == 3 && copy.b == 4 && result.a == 1 && result.b == 7 && third.b == 4);
    CHECK(4, first == 1 && second == 2);
    CHECK(5, entered(0) == 3 + 20 + 507 && entered(2) == 3 * 530);
    for (i = t = 0; i < 3; i++) {
        int fresh = i, list[3] = { 7 };
        char *name = i == 1 ? "one" : "other";
        fresh += 10;
        list[i] += 1;
        t += fresh + list[0] + list[1] + list[2] + (*name == 'o') + (name[3] == 0);
        list[2] = 100;
    }
    CHECK(6, t == 10 + 11 + 12 + 3 * 8 + 3 + 1);
    {
        int a = 1;
        {
            int b = a + 1;
            int a = b * 10;
            CHECK(7, a == 20 && b == 2);
        }
        CHECK(8, a == 1 && b == 6);
    }
    {
        int *p = &a, **pp = &p;
        struct { int n[2]; char *s; } local = { { 1, 2 }, "xyz" }, again = { { 3 } };
        CHECK(9, **pp == 9 && local.n[1] == 2 && local.s[2] == 'z' && again.n[0] == 3 && again.n[1] == 0 && again.s == 0);
    }
    {
        char open[] = "seven..", grid[2][3] = { "ab", "cde" };
        static int kept = 3;
        int size = sizeof open;
        CHECK(10, size == 8 && grid[0][2] == 0 && grid[1][2] == 'e' && kept++ == 3);
    }
    {
        int n = sizeof n, m = n, same = (m == n);
        CHECK(11, n == 4 && m == 4 && same);
    }
    if (a) {
        int then = a;
        a = then + 1;
    } else {
        int then = 0;
        a = then;
    }
    CHECK(12, a == 10);
    return 0;
}
