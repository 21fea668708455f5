/* Operands are evaluated from the left, and the left side of an assignment first. This is the machine's own rule: docs/MACHINE.md. */
#define CHECK(number, condition) do { if (!(condition)) return number; } while (0)

char trace[40];
int at;
int mark(int c) { trace[at++] = c; return c - 'a'; }
int *spot(int c) { static int list[4]; mark(c); return list; }
int is(char *expected) { int n = 0; for (; n < at; n++) if (trace[n] != expected[n]) return at = 0; at = 0; return expected[n] == 0; }
int three(int a, int b, int c) { mark('f'); return a * 100 + b * 10 + c; }
int global;
int set(int n) { global = n; return n; }
struct Pair { int a, b; } pair = { 1, 2 };
struct Pair raised(void) { pair.a++; return pair; }
int both(struct Pair x, struct Pair y) { return x.a * 10 + y.a; }

int main(void)
{
    int i, a[5], *p;

    mark('b') + mark('c') * mark('d');
    CHECK(1, is("bcd"));
    three(mark('b'), mark('c'), mark('d'));
    CHECK(2, is("bcdf"));
    three(three(mark('b'), 1, mark('c')), mark('d'), 2);
    CHECK(3, is("bcfdf"));
    *spot('x') = mark('y');
    CHECK(4, is("xy"));
    spot('x')[mark('a')] += mark('y');
    CHECK(5, is("xay"));
    *spot('p') = *spot('q') = mark('r');
    CHECK(6, is("pqr"));
    mark('a') < mark('b') == mark('c') << mark('d');
    CHECK(7, is("abcd"));
    mark('a') && mark('b') || mark('c') && mark('d'), mark('e');
    CHECK(8, is("acde"));
    i = 1;
    CHECK(9, i + i++ == 2 && i++ + i == 5 && i == 3 && i++ - i == -1);
    i = 1;
    CHECK(10, three(i, i++, i) == 112 && three(i++, i++, i++) == 234 && i == 5);
    at = 0;
    i = 0;
    a[i] = ++i;
    a[i++] = i;
    a[i++] = i++;
    CHECK(11, a[0] == 1 && a[1] == 2 && a[2] == 3 && i == 4);
    i = 5;
    i = i++ + 1;
    CHECK(12, i == 6);
    i += set(3) + i;
    CHECK(13, i == 15);
    global = 1;
    global += set(10);
    CHECK(14, global == 11);
    global = 1;
    CHECK(15, global + set(5) == 6 && set(7) + global == 14);
    global = 2;
    global = global * set(9) + global;
    CHECK(16, global == 27);
    CHECK(17, both(pair, raised()) == 12 && both(raised(), pair) == 33 && both(raised(), raised()) == 45);
    p = a;
    *p++ = *p + 5;
    CHECK(18, a[0] == 7 && p == a + 1);
    *p = p - a + *p++;
    CHECK(19, p == a + 2 && a[1] == 3);
    i = 1;
    i <<= i++ + i;
    CHECK(20, i == 8);
    i = 3;
    CHECK(21, (i = 4) + i == 8 && i + (i = 1) == 5 && (i, i = 2) + i == 4);
    i = 1;
    i = i-- - --i;
    CHECK(22, i == 2);
    i = 0;
    a[0] = 5;
    CHECK(23, a[i] + a[i = 1] + i == 9 && a[i = 0] - i == 5);
    return 0;
}
