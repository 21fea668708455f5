/* Initialisers of objects that last (3.5.7): partial, nested, without inner braces, strings, addresses. */
#define CHECK(number, condition) do { if (!(condition)) return number; } while (0)

struct Pair { short a; long b; };
struct Tree { struct Pair pair; char name[4]; struct { int x[2][2]; char end; } rest; };
struct Link { int value; struct Link *next; char *name; };

int zero, seven = 7, tentative, tentative = 4;
int partial[5] = { 1, 2 }, open[] = { 9, 8, 7, }, one = { 11 };
int full[2][3] = { { 1, 2, 3 }, { 4, 5, 6 } }, flat[2][3] = { 1, 2, 3, 4 }, mixed[3][2] = { { 1 }, 2, 3, { 4 } };
int rows[][2] = { { 1 }, { 2, 3 }, { 4 } }, run[][2] = { 1, 2, 3 };
struct Pair pairs[3] = { { 1, 2 }, { 3 } }, bare[2] = { 1, 2, 3, 4 };
struct Tree tree = { { 1, 2 }, "abc", { { { 3, 4 }, { 5, 6 } }, 'z' } };
struct Tree loose = { 1, 2, 'x', 'y', 0, 'z', 3, 4, 5, 6, 7 };
struct Tree short_tree = { { 1 }, { 'q' } };
struct Tree trees[2] = { { { 5 } }, 8, 9, "hi", { { 1, 2, 3 } } };
extern struct Link last;
struct Link first = { 1, &last, "first" }, last = { 2, &first };
int *middle = &partial[2], *end = partial + 5, *near = &full[1][1] - 1;
char *text = "text", *tail = "text" + 2, **indirect = &text;
long *inside = &pairs[1].b, numbers[3] = { -1, 4294967295U, 'a' };
char chars[4] = { 'a', 300, -1 }, *words[] = { "one", "two", 0 };
unsigned char bytes[] = { -1, 256, 255 };
short narrow = 70000, sizes[] = { sizeof(struct Pair), sizeof numbers, sizeof "abc", sizeof(char *) };
unsigned big = -1, shifted = 1u << 31, mix = 3 * (4 + 5) % 7 - (8 >> 1) | 64;
int chosen = 1 ? 5 : 6, truth = 3 && 0 || 2 > 1, comparison = -1 < 0u, cast = (char)200, negative = -7 / 2 * 10 + -7 % 3;
enum Kind { small = 3, large = small * 10 } kind = large;
int sized[large / small + 1] = { large };

int main(void)
{
    int i, t = 0;

    CHECK(1, zero == 0 && seven == 7 && tentative == 4 && one == 11);
    CHECK(2, partial[0] == 1 && partial[1] == 2 && partial[2] == 0 && partial[4] == 0 && sizeof open == 12 && open[2] == 7);
    CHECK(3, full[1][2] == 6 && flat[0][2] == 3 && flat[1][0] == 4 && flat[1][1] == 0);
    CHECK(4, mixed[0][0] == 1 && mixed[0][1] == 0 && mixed[1][0] == 2 && mixed[1][1] == 3 && mixed[2][0] == 4 && mixed[2][1] == 0);
    CHECK(5, sizeof rows == 24 && rows[2][0] == 4 && rows[0][1] == 0 && sizeof run == 16 && run[1][0] == 3 && run[1][1] == 0);
    CHECK(6, pairs[0].b == 2 && pairs[1].a == 3 && pairs[1].b == 0 && pairs[2].a == 0 && bare[1].a == 3 && bare[1].b == 4);
    CHECK(7, tree.pair.b == 2 && tree.name[2] == 'c' && tree.name[3] == 0 && tree.rest.x[1][0] == 5 && tree.rest.end == 'z');
    CHECK(8, loose.pair.b == 2 && loose.name[1] == 'y' && loose.name[3] == 'z' && loose.rest.x[0][0] == 3 && loose.rest.x[1][1] == 6 && loose.rest.end == 7);
    CHECK(9, short_tree.pair.a == 1 && short_tree.pair.b == 0 && short_tree.name[0] == 'q' && short_tree.name[1] == 0 && short_tree.rest.end == 0);
    CHECK(10, trees[0].pair.a == 5 && trees[0].rest.end == 0 && trees[1].pair.a == 8 && trees[1].pair.b == 9 && trees[1].name[1] == 'i' && trees[1].rest.x[1][0] == 3);
    CHECK(11, first.next == &last && first.next->next == &first && last.value == 2 && last.name == 0 && first.name[4] == 't');
    CHECK(12, *middle == 0 && middle - partial == 2 && end - partial == 5 && end[-5] == 1 && *near == 4);
    CHECK(13, text[3] == 't' && *tail == 'x' && (*indirect)[1] == 'e' && inside == &pairs[1].b);
    CHECK(14, numbers[1] == -1 && numbers[2] == 97 && chars[1] == 44 && chars[2] == -1 && chars[3] == 0 && bytes[0] == 255 && bytes[1] == 0);
    while (words[t])
        t++;
    CHECK(15, t == 2 && words[1][2] == 'o' && sizeof words == 12);
    CHECK(16, narrow == 4464 && sizes[0] == 6 && sizes[1] == 12 && sizes[2] == 4 && sizes[3] == 4);
    CHECK(17, big == 4294967295U && shifted == 2147483648U && mix == (6 - 4 | 64));
    CHECK(18, chosen == 5 && truth == 1 && comparison == 0 && cast == -56 && negative == -31);
    CHECK(19, kind == 30 && sizeof sized == 44 && sized[0] == 30);
    for (i = 1; i < 11; i++)
        CHECK(20, sized[i] == 0);
    *inside = 5;
    *middle = 6;
    CHECK(21, pairs[1].b == 5 && partial[2] == 6);
    return 0;
}
