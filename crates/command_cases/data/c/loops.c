/* Loops, `break` and `continue` (3.6.5, 3.6.6). */
#define CHECK(number, condition) do { if (!(condition)) return number; } while (0)

int tested;
int test(int c) { tested++; return c; }

int main(void)
{
    int i, j, n, t;
    unsigned u;
    char c;
    unsigned char uc;

    i = 0;
    do {
        i++;
        if (i < 5)
            continue;
        break;
    } while (test(1));
    CHECK(1, i == 5 && tested == 4);
    i = t = 0;
    do {
        if (i == 3)
            continue;
        t += i;
    } while (++i < 6);
    CHECK(2, t == 12 && i == 6);
    tested = 0;
    do continue; while (test(tested < 3));
    CHECK(3, tested == 4);
    for (i = t = 0; i < 10; i++) {
        if (i & 1)
            continue;
        if (i == 8)
            break;
        t += i;
    }
    CHECK(4, t == 12 && i == 8);
    i = 10;
    while (i --> 0)
        if (i % 3 == 0)
            continue;
        else if (i == 4)
            break;
    CHECK(5, i == 4);
    t = 0;
    for (i = 0; i < 5; i++)
        for (j = 0; j < 5; j++) {
            if (j == i)
                break;
            if ((i + j) % 2)
                continue;
            t += 10 * i + j;
        }
    CHECK(6, t == 20 + 31 + 40 + 42);
    for (i = 0, j = 10; i < j; i++, j--) ;
    CHECK(7, i == 5 && j == 5);
    for (n = 0; ; n++) {
        if (n > 100)
            break;
    }
    CHECK(8, n == 101);
    for (c = 1, n = 0; c > 0; c++)
        n++;
    CHECK(9, n == 127 && c == -128);
    for (uc = 5, n = 0; uc < 6; uc--)
        n++;
    CHECK(10, n == 6 && uc == 255);
    for (u = 3, n = 0; u + 1 > 0; u--)
        n += u;
    CHECK(11, n == 6 && u == 4294967295U);
    while (0)
        n = 0;
    for (; 0; )
        n = 0;
    do n++; while (0);
    CHECK(12, n == 7);
    n = 27;
    t = 0;
    while (n != 1) {
        n = n % 2 ? 3 * n + 1 : n / 2;
        t++;
    }
    CHECK(13, t == 111);
    t = 0;
    for (i = 0; i < 3; i++) {
        int k = i * 2;
        while (1) {
            if (k-- == 0)
                break;
            do {
                t++;
                if (t > 4)
                    break;
            } while (0);
        }
    }
    CHECK(14, t == 6 && i == 3);
    i = 5;
    while (i)
        if (i > 2)
            i -= 2;
        else
            i--;
    CHECK(15, i == 0);
    for (i = 0; i < 3; ) i++;
    while (i++ < 10) ;
    CHECK(16, i == 11);
    for (i = 0, t = 1; i++ < 5; t *= 2)
        if (i == 3)
            continue;
    CHECK(17, t == 32 && i == 6);
    return 0;
}
