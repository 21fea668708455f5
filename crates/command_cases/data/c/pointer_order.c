/* Differences and comparisons of pointers (3.3.6, 3.3.8, 3.3.9). */
#define CHECK(number, condition) do { if (!(condition)) return number; } while (0)

int list[10];
short grid[4][5];
struct Part { char name[3]; int size; } parts[4];
char *nil;
int *empty = 0;

int index_of(int *a, int n, int value)
{
    int *p;
    for (p = a; p != a + n; p++)
        if (*p == value)
            return p - a;
    return -1;
}

int *middle(int *low, int *high) { return low + (high - low) / 2; }
int *chosen(int c, int *p) { return c ? p : 0; }

int main(void)
{
    int *p = list, *q = list + 7, i;
    char other;

    for (i = 0; i < 10; i++)
        list[i] = i * i;
    CHECK(1, q - p == 7 && p - q == -7 && q - q == 0 && &list[10] - list == 10);
    CHECK(2, p < q && q > p && p <= p && p >= p && !(p < p) && p != q && !(p == q) && q <= list + 10);
    CHECK(3, index_of(list, 10, 49) == 7 && index_of(list, 10, 50) == -1 && index_of(list + 5, 5, 36) == 1);
    CHECK(4, middle(p, q) == list + 3 && *middle(list, list + 10) == 25);
    CHECK(5, &grid[3][4] - &grid[0][0] == 19 && grid[2] - grid[0] == 10 && &grid[2] - &grid[0] == 2 && grid + 4 > &grid[3]);
    CHECK(6, &parts[3] - parts == 3 && &parts[1].size - &parts[0].size == 2 && parts[2].name < parts[3].name);
    CHECK(7, (char *)&parts[0].size - parts[0].name == 4 && (char *)&parts[1] - (char *)parts == 8);
    CHECK(8, nil == 0 && !nil && empty == 0 && !(p == 0) && 0 != p && p && !!p == 1);
    nil = &other;
    CHECK(9, nil && nil != 0 && (nil ? 1 : 2) == 1 && nil == &other && nil != (char *)list);
    nil = 0;
    CHECK(10, !nil && (nil ? 1 : 2) == 2 && nil == (void *)0 && nil == (char *)0);
    CHECK(11, chosen(1, p) == list && !chosen(0, p) && chosen(0, p) == empty && chosen(1, p) != empty);
    CHECK(12, (q - p) / 2 == 3 && (p - q) / 2 == -3 && (p - q) % 2 == -1 && -(q - p) == p - q);
    CHECK(13, q - 3 - p == 4 && q - (p + 3) == 4 && (p - q < 0) == 1 && p - q < 1u == 0);
    CHECK(14, sizeof(p - q) == 4);
    while (p < q)
        p++, q--;
    CHECK(15, p - list == 4 && q - list == 3 && p > q);
    CHECK(16, (p == q) + (p != q) + (p > q) * 2 == 3);
    return 0;
}
