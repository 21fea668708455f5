/* Each call has variables of its own (3.1.2.4). */
#define CHECK(number, condition) do { if (!(condition)) return number; } while (0)

int even(int n);
int odd(int n) { return n == 0 ? 0 : even(n - 1); }
int even(int n) { return n == 0 ? 1 : odd(n - 1); }
int fibonacci(int n) { return n < 2 ? n : fibonacci(n - 1) + fibonacci(n - 2); }
unsigned long factorial(unsigned char n) { return n ? n * factorial(n - 1) : 1; }
int ackermann(int m, int n) { return m == 0 ? n + 1 : n == 0 ? ackermann(m - 1, 1) : ackermann(m - 1, ackermann(m, n - 1)); }
int divisor(int a, int b) { return b ? divisor(b, a % b) : a; }
int power(int base, unsigned n) { int half; if (n == 0) return 1; half = power(base, n / 2); return n % 2 ? half * half * base : half * half; }

int moves;
void hanoi(int n, char from, char to, char by)
{
    if (n == 0)
        return;
    hanoi(n - 1, from, by, to);
    moves = moves * 3 + to - from;
    hanoi(n - 1, by, to, from);
}

int chain(int n, int *up)
{
    int here = n, array[3];
    array[n % 3] = n;
    if (up)
        *up += n;
    if (n > 0)
        array[n % 3] += chain(n - 1, &here);
    return array[n % 3] * 2 + here;
}

char queens[8];
int placed(int row, int size)
{
    int column, other, found = 0;
    if (row == size)
        return 1;
    for (column = 0; column < size; column++) {
        int ok = 1;
        for (other = 0; other < row && ok; other++)
            if (queens[other] == column || queens[other] - column == row - other || column - queens[other] == row - other)
                ok = 0;
        if (!ok)
            continue;
        queens[row] = column;
        found += placed(row + 1, size);
    }
    return found;
}

void sort(int *a, int n)
{
    int pivot, i, j, spare;
    if (n < 2)
        return;
    pivot = a[n / 2];
    for (i = 0, j = n - 1; ; i++, j--) {
        while (a[i] < pivot) i++;
        while (a[j] > pivot) j--;
        if (i >= j)
            break;
        spare = a[i];
        a[i] = a[j];
        a[j] = spare;
    }
    sort(a, i);
    sort(a + i, n - i);
}

int *deepest(int n, int *p) { int here; here = n; if (!p || here > *p) p = &here; return n ? deepest(n - 1, p) : (moves = *p, (int *)0); }
int depth(int n) { return n ? 1 + depth(n - 1) : 0; }

int main(void)
{
    static int numbers[12] = { 5, 3, -9, 12, 0, 7, 7, 100, -1, 4, 2, 8 };
    int i;

    CHECK(1, even(10) && !even(7) && odd(7) && !odd(0));
    CHECK(2, fibonacci(15) == 610 && factorial(12) == 479001600 && factorial(13) == 1932053504);
    CHECK(3, ackermann(2, 3) == 9 && ackermann(0, 5) == 6);
    CHECK(4, divisor(84, 36) == 12 && divisor(17, 5) == 1 && power(3, 13) == 1594323 && power(-2, 31) == -2147483647 - 1);
    hanoi(3, 1, 3, 2);
    CHECK(5, moves == 1670);
    CHECK(6, chain(0, 0) == 0 && chain(1, 0) == 3 && chain(2, 0) == 13);
    CHECK(7, placed(0, 6) == 4 && placed(0, 5) == 10);
    sort(numbers, 12);
    for (i = 1; i < 12; i++)
        CHECK(8, numbers[i - 1] <= numbers[i]);
    CHECK(9, numbers[0] == -9 && numbers[11] == 100);
    CHECK(10, deepest(5, 0) == 0 && moves == 5);
    CHECK(11, depth(5000) == 5000);
    return 0;
}
