/* The comma operator (3.3.17). */
#define CHECK(number, condition) do { if (!(condition)) return number; } while (0)

char trace[20];
int at;
int mark(int c) { trace[at++] = c; return c; }
int two(int a, int b) { return a * 10 + b; }

int main(void)
{
    int i = 1, j = 2, a[4];
    char c = 'x';
    int *p;

    CHECK(1, (i, j) == 2 && (i = 5, i + 1) == 6 && i == 5);
    j = i, 7;
    CHECK(2, j == 5);
    j = (i, 7);
    CHECK(3, j == 7);
    i = (mark('a'), mark('b'), mark('c'));
    CHECK(4, i == 'c' && at == 3 && trace[0] == 'a' && trace[1] == 'b' && trace[2] == 'c');
    CHECK(5, two((i = 1, i + 1), (j = 3, j)) == 23);
    i = 1;
    CHECK(6, (i++, i++, i) == 3 && (i = 0, i++) == 0 && i == 1);
    CHECK(7, sizeof(i, c) == 1 && sizeof(c, i) == 4 && i == 1);
    a[0] = 0, a[1] = 1, a[2] = 2, a[3] = 3;
    CHECK(8, (a[i++, i] == 2 && a[(i = 0, 3)] == 3 && i == 0));
    p = (i++, a);
    CHECK(9, p[3] == 3 && *(i++, p + 1) == 1 && i == 2);
    for (i = 0, j = 9; i++, j > 5; j--, i++) ;
    CHECK(10, j == 5 && i == 9);
    if (i = 0, j)
        i = 4;
    CHECK(11, i == 4);
    while (i--, i > 0) ;
    CHECK(12, i == 0);
    i = (j = 3, j += 2, j *= j);
    CHECK(13, i == 25 && j == 25);
    (i = 1), (j = 2);
    (void)(i++, j++);
    CHECK(14, i == 2 && j == 3);
    i = j ? (i = 8, i + 1) : (j = 0, 1);
    CHECK(15, i == 9 && j == 3);
    (i, c) ? (i = 3) : 0;
    CHECK(16, i == 3);
    switch (i = 4, i) { case 4: j = 1; }
    CHECK(17, j == 1);
    CHECK(18, ((((1, 2), 3), 4), 5) == 5 && (1, (2, (3, 4))) == 4);
    return 0;
}
