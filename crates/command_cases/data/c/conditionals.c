/* Conditional expressions and statements, and how operators bind (3.3, 3.3.15, 3.6.4.1). */
#define CHECK(number, condition) do { if (!(condition)) return number; } while (0)

int grade(int n) { return n < 10 ? 1 : n < 20 ? 2 : n < 30 ? 3 : 4; }
int inner(int a, int b, int c) { return a ? b ? c ? 7 : 6 : c ? 5 : 4 : b ? c ? 3 : 2 : c ? 1 : 0; }
int hanging(int a, int b) { if (a) if (b) return 1; else return 2; return 3; }
int bound(int a, int b) { if (a) { if (b) return 1; } else return 2; return 3; }
int chained(int n)
{
    if (n == 1)
        return 10;
    else if (n == 2)
        return 20;
    else if (n == 3) {
        if (n > 5)
            return 0;
    } else
        return 40;
    return 30;
}

int main(void)
{
    int i = 0, j = 5, a[3];
    unsigned char uc = 200;
    char c = -1;
    unsigned u = 1;
    int *p = a, *q = 0;

    CHECK(1, grade(5) == 1 && grade(15) == 2 && grade(25) == 3 && grade(35) == 4);
    for (i = 0; i < 8; i++)
        CHECK(2, inner(i & 4, i & 2, i & 1) == i);
    CHECK(3, hanging(1, 1) == 1 && hanging(1, 0) == 2 && hanging(0, 1) == 3);
    CHECK(4, bound(1, 1) == 1 && bound(1, 0) == 3 && bound(0, 1) == 2);
    CHECK(5, chained(1) == 10 && chained(2) == 20 && chained(3) == 30 && chained(4) == 40);
    i = 0;
    CHECK(6, (1 ? i++ : j++) == 0 && i == 1 && j == 5 && (0 ? i++ : --j) == 4 && i == 1 && j == 4);
    CHECK(7, (1 ? -1 : 0u) > 0 && (1 ? -1 : 0) < 0 && (0 ? 0u : -1) == 4294967295U);
    CHECK(8, (1 ? c : uc) == -1 && (0 ? c : uc) == 200 && sizeof(1 ? c : uc) == 4);
    CHECK(9, (i ? p : q) == a && (i ? q : p) == 0 && (i ? 0 : p) == q && (i ? p : 0) == a && !(i ? (void *)0 : p));
    CHECK(10, (u ? c : u) == 4294967295U);
    a[0] = i ? j ? 3 : 4 : 5;
    CHECK(11, a[0] == 3);
    i = 0, j = 0;
    (j = 1) ? (i = 2) : (i = 3);
    CHECK(12, i == 2 && (i == 2 ? j : i) == 1);
    i = 1 ? 2, 3 : 4;
    CHECK(13, i == 3);
    i = 1 ? 2 : 3 + 10;
    CHECK(14, i == 2 && (1 ? 2 : 3) + 10 == 12);
    *(i == 2 ? &i : &j) = 9;
    CHECK(15, i == 9 && j == 1);
    CHECK(16, 2 + 3 * 4 == 14 && (2 + 3) * 4 == 20 && 20 - 5 - 3 == 12 && 100 / 5 / 2 == 10 && 7 % 4 * 2 == 6);
    CHECK(17, (1 | 6 & 4 ^ 2) == 7 && (5 & 3 == 3) == 1 && (1 | 2 == 2) == 1 && ~0 & 1 && (!0 + 1) == 2);
    CHECK(18, -2 - -2 == 0 && - -3 == 3 && !!5 == 1 && ~~7 == 7 && -~4 == 5 && ~-4 == 3 && !-1 == 0);
    CHECK(19, (char)300 + 1 == 45 && -(char)200 == 56 && (unsigned char)~0 == 255 && sizeof(char) * 3 == 3 && sizeof i + 1 == 5);
    CHECK(20, (1 < 2 == 2 > 1) && (1 == 1 != 0) && !(1 == 2 == 1) && 5 > 3 == 1 && (0 == 0 > 1) == 1);
    p = &a[1];
    a[1] = 6;
    CHECK(21, -*p == -6 && !*p == 0 && *p * *p == 36 && *p-1 == 5 && 12 / *p == 2 && ~*p == -7);
    i = j = 4;
    i += j -= 2;
    CHECK(22, i == 6 && j == 2);
    CHECK(23, i+++j == 8 && i == 7 && i---j == 5 && i == 6 && i- -j == 8);
    CHECK(24, (0 || 1 && 0) == 0 && (1 || 0 && 0) == 1 && (1 ? 0 : 1 || 1) == 0);
    if (q) i = 100; else if (p) i = 200;
    CHECK(25, i == 200);
    return 0;
}
