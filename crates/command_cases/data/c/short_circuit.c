/* `&&` and `||` evaluate what they need, from the left (3.3.13, 3.3.14). */
#define CHECK(number, condition) do { if (!(condition)) return number; } while (0)

int calls;
int yes(void) { calls++; return 7; }
int no(void) { calls += 10; return 0; }
int taken(void) { int n = calls; calls = 0; return n; }
int divided(int a, int b) { return b != 0 && a / b > 2; }
int safe(int *p) { return p && *p > 0; }

int main(void)
{
    int i = 0, j = 0, k, a[2];
    char c = 0;
    unsigned u = 256;
    int *p = 0;

    CHECK(1, (yes() && no()) == 0 && taken() == 11);
    CHECK(2, (no() && yes()) == 0 && taken() == 10);
    CHECK(3, (yes() || no()) == 1 && taken() == 1);
    CHECK(4, (no() || yes()) == 1 && taken() == 11);
    CHECK(5, (no() || no() || yes() || yes()) == 1 && taken() == 21);
    CHECK(6, (yes() && yes() && no() && yes()) == 0 && taken() == 12);
    CHECK(7, (no() && yes() || yes()) == 1 && taken() == 11);
    CHECK(8, (yes() || yes() && no()) == 1 && taken() == 1);
    CHECK(9, ((yes() || no()) && no()) == 0 && taken() == 11);
    CHECK(10, !(no() || no()) && taken() == 20 && !yes() == 0 && taken() == 1);
    CHECK(11, divided(9, 0) == 0 && divided(9, 3) == 1 && divided(3, 3) == 0);
    a[0] = 1;
    CHECK(12, safe(0) == 0 && safe(a) == 1);
    i++ && j++;
    CHECK(13, i == 1 && j == 0);
    i++ && j++;
    CHECK(14, i == 2 && j == 1);
    i++ || j++;
    CHECK(15, i == 3 && j == 1);
    k = (i = 0) || (j = 5);
    CHECK(16, k == 1 && i == 0 && j == 5);
    k = i && (j = 9);
    CHECK(17, k == 0 && j == 5);
    CHECK(18, (5 && 9) == 1 && (0 || 4) == 1 && sizeof(c && c) == 4 && (5 && 9) + (0 || 2) == 2);
    CHECK(19, (u && 1) == 1 && ((c = u) && 1) == 0 && (0x80000000 && 1) == 1);
    CHECK(20, !p && !(p && *p) && (!p || *p));
    i = 3;
    if (i > 2 && i < 4 || (i = 100))
        i++;
    CHECK(21, i == 4);
    while (i > 0 && i-- != 2) ;
    CHECK(22, i == 1);
    CHECK(23, (i && j ? 1 : 2) == 1 && (i - 1 || j - 5 ? 1 : 2) == 2);
    i = 1;
    CHECK(24, i-- && !i && i == 0 && (i++ || i == 1));
    return 0;
}
