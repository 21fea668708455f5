/* Arrays become pointers to their first elements (3.2.2.1), but not in `sizeof` and after `&`. The sizes are those of the machine. */
#define CHECK(number, condition) do { if (!(condition)) return number; } while (0)

int row[5] = { 1, 2, 3, 4, 5 };
short grid[3][4] = { { 1, 2, 3, 4 }, { 5, 6, 7, 8 }, { 9, 10, 11, 12 } };
char cube[2][3][2];
struct Holder { char name[6]; int list[3]; } holder = { "abc", { 7, 8, 9 } };

int size_of_parameter(int a[5]) { return sizeof a; }
int last(int *a, int n) { return a[n - 1]; }
int diagonal(short a[][4], int n) { int i, t = 0; for (i = 0; i < n; i++) t += a[i][i]; return t; }
int cell(short (*a)[4], int i, int j) { return *(*(a + i) + j); }
void fill(char *text, int n) { while (n-- > 0) text[n] = '*'; }
int *after(int a[]) { return a + 1; }
int names(char *list[], int n) { int t = 0; while (n--) t += *list[n]; return t; }

int main(void)
{
    int *p = row, (*whole)[5] = &row;
    short *q = grid[1], (*line)[4] = grid;
    char *words[3], local[10];
    int i, j, k;

    CHECK(1, sizeof row == 20 && sizeof p == 4 && sizeof *whole == 20 && sizeof grid == 24 && sizeof grid[0] == 8 && sizeof *grid == 8);
    CHECK(2, size_of_parameter(row) == 4 && sizeof(row + 0) == 4 && sizeof &row == 4 && sizeof(0, row) == 4);
    CHECK(3, *row == 1 && *(row + 4) == 5 && row[2] == 3 && 2[row] == 3 && (row + 1)[1] == 3 && (&row[4])[-1] == 4);
    CHECK(4, p == row && p == &row[0] && *whole == row && (*whole)[3] == 4 && whole[0][3] == 4 && **whole == 1);
    CHECK(5, *q == 5 && q[3] == 8 && q[-1] == 4 && q - grid[0] == 4);
    CHECK(6, line[2][1] == 10 && *line[1] == 5 && **(line + 2) == 9 && (*(line + 1))[2] == 7);
    line++;
    CHECK(7, line == grid + 1 && line[0][0] == 5 && line[-1][3] == 4 && line - grid == 1);
    CHECK(8, last(row, 5) == 5 && last(row, 3) == 3 && last(p + 2, 2) == 4 && *after(row) == 2 && after(after(row))[1] == 4);
    CHECK(9, diagonal(grid, 3) == 18 && cell(grid, 2, 3) == 12 && cell(grid + 1, 1, 0) == 9);
    fill(holder.name, 3);
    CHECK(10, holder.name[0] == '*' && holder.name[2] == '*' && holder.name[3] == 0 && holder.list[0] == 7);
    p = holder.list;
    CHECK(11, p[2] == 9 && *(holder.list + 1) == 8 && sizeof holder.list == 12 && sizeof holder.name == 6 && sizeof holder == 18);
    for (i = 0; i < 2; i++)
        for (j = 0; j < 3; j++)
            for (k = 0; k < 2; k++)
                cube[i][j][k] = i * 6 + j * 2 + k;
    CHECK(12, cube[1][2][1] == 11 && *(*(*(cube + 1) + 1) + 1) == 9 && sizeof cube == 12 && sizeof cube[0] == 6 && sizeof cube[0][0] == 2);
    CHECK(13, &cube[1][0][0] - &cube[0][0][0] == 6 && cube[1] - cube[0] == 3 && &cube[1] - &cube[0] == 1);
    words[0] = "one";
    words[1] = words[0] + 1;
    words[2] = local;
    local[0] = 'z';
    CHECK(14, names(words, 3) == 'o' + 'n' + 'z' && words[1][1] == 'e' && *words[2] == 'z' && sizeof words == 12);
    CHECK(15, sizeof "abc" == 4 && sizeof("abc" + 0) == 4 && *"abc" == 'a' && sizeof local / sizeof *local == 10);
    CHECK(16, row ? 1 : 0);
    CHECK(17, !grid[0] == 0 && (row && 1));
    return 0;
}
