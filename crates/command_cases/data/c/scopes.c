/* Names that hide others, name spaces and linkage (3.1.2.1 to 3.1.2.3). */
#define CHECK(number, condition) do { if (!(condition)) return number; } while (0)

int x = 1, y = 2, tag = 9;
struct tag { int tag; } named = { 5 };
enum Kind { first = 3, second };
typedef struct tag Tag;
static int private_one = 11;
extern int later;

int hidden(int x) { { int x = 30; y += x; } return x; }
int through(void) { int x = 100; { extern int x; x++; } return x; }
int declared(void) { int later_too(void); return later_too(); }
int self(int self) { return self + 1; }
int member(struct tag *tag) { return tag->tag; }
int prototype(int x, int (y));
int prototype(int y, int x) { return x - y; }
int shadow(int n)
{
    int t = n;
    while (n-- > 0) {
        int t = 100;
        t += n;
        if (n == 1) {
            int n = t;
            t = n * 2;
        }
    }
    return t;
}

int main(void)
{
    int i, a = x;

    {
        int x = 5, y = x;
        CHECK(1, x == 5 && y == 5);
        {
            int x = 6;
            y = x;
        }
        CHECK(2, x == 5 && y == 6);
        {
            char x = 200, *p = &x;
            CHECK(3, *p == -56 && sizeof x == 1);
        }
        x++;
        CHECK(4, x == 6);
    }
    CHECK(5, x == 1 && y == 2 && a == 1);
    CHECK(6, hidden(7) == 7 && y == 32 && x == 1);
    CHECK(7, through() == 100 && x == 2);
    CHECK(8, declared() == 77 && later == 8 && self(3) == 4);
    CHECK(9, member(&named) == 5 && tag == 9 && named.tag == 5);
    {
        struct tag { char tag[3]; int other; } named = { "ab", 4 };
        struct tag *p = &named;
        Tag outside;
        outside.tag = 12;
        CHECK(10, p->tag[1] == 'b' && named.other == 4 && sizeof(struct tag) == 8 && sizeof(Tag) == 4 && outside.tag == 12);
    }
    {
        struct tag;
        struct holder { struct tag *p; } h;
        struct tag { int a, b; } local = { 1, 2 };
        h.p = &local;
        CHECK(11, h.p->b == 2 && sizeof(struct tag) == 8);
    }
    CHECK(12, sizeof(struct tag) == 4 && named.tag == 5);
    {
        int first = 50;
        enum Kind { second = 60 } kind = second;
        CHECK(13, first == 50 && kind == 60);
        {
            enum { first = 70 };
            CHECK(14, first == 70 && second == 60);
        }
        CHECK(15, first == 50);
    }
    CHECK(16, first == 3 && second == 4);
    CHECK(17, shadow(3) == 3 && prototype(1, 5) == 4);
    for (i = 0; i < 2; i++) {
        int i = 10;
        i++;
        CHECK(18, i == 11);
    }
    CHECK(19, i == 2);
    {
        extern int private_one, y;
        int shared(int);
        private_one++;
        y = shared(y);
        CHECK(20, private_one == 12 && y == 64);
    }
    CHECK(21, private_one == 12 && y == 64);
    {
        int sum = sizeof(struct inside { char a; short b; });
        struct inside it;
        it.b = sum;
        CHECK(22, it.b == 4);
    }
    return 0;
}

int later = 8;
int later_too(void) { return 77; }
int shared(int n) { return n * 2; }
