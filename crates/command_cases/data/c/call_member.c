/* A member of a struct that is no object: of a call, an assignment, a conditional and a comma (3.3.2.3). */
#define CHECK(number, condition) do { if (!(condition)) return number; } while (0)

struct Pair { int a; char b; };
struct Pair one = { 1, 'x' }, two = { 2, 'y' };

struct Pair made(int a) { struct Pair it; it.a = a; it.b = a + 1; return it; }

int main(void)
{
    struct Pair other;
    int i = 1;

    CHECK(1, made(5).a == 5 && made(255).b == 0);
    CHECK(2, (other = one).a == 1 && other.b == 'x');
    CHECK(3, (i ? one : two).b == 'x' && (!i ? one : two).a == 2);
    CHECK(4, (i++, two).a == 2 && i == 2);
    return 0;
}
