/* Structs as arguments and as results (3.3.2.2, 3.6.6.4). */
#define CHECK(number, condition) do { if (!(condition)) return number; } while (0)

typedef struct { short v, h; } Point;
typedef struct { Point from, to; } Line;
struct Row { char cells[7]; };
struct Big { int numbers[40]; };

Point origin;

Point made(int v, int h)
{
    Point p;
    p.v = v;
    p.h = h;
    return p;
}

Point sum(Point a, Point b)
{
    a.v += b.v;
    a.h += b.h;
    return a;
}

Line line(Point a, Point b)
{
    Line it;
    it.from = a;
    it.to = b;
    return it;
}

Line turned(Line it)
{
    Point spare;
    spare = it.from;
    it.from = it.to;
    it.to = spare;
    return it;
}

struct Row filled(struct Row row, int depth)
{
    if (depth > 6)
        return row;
    row.cells[depth] = 'a' + depth;
    return filled(row, depth + 1);
}

struct Big big(int start)
{
    struct Big it;
    int i;
    for (i = 0; i < 40; i++)
        it.numbers[i] = start + i;
    return it;
}

int total(struct Big it, int limit)
{
    int i, t = 0;
    for (i = 0; i < limit; i++) {
        t += it.numbers[i];
        it.numbers[i] = -1;
    }
    return t;
}

Point *place(Point *p) { p->v++; return p; }
Point fetched(void) { origin.v++; return origin; }
int length(Line it) { return it.to.v - it.from.v + it.to.h - it.from.h; }

int main(void)
{
    Point a, b, *p = &a;
    Line it;
    struct Row row, done;
    struct Big large;
    int i;

    a = made(3, 4);
    CHECK(1, a.v == 3 && a.h == 4);
    b = sum(a, made(10, 20));
    CHECK(2, b.v == 13 && b.h == 24 && a.v == 3 && a.h == 4);
    it = turned(line(a, b));
    CHECK(3, it.from.v == 13 && it.to.h == 4);
    a = sum(sum(a, a), sum(made(1, 1), a));
    CHECK(4, a.v == 10 && a.h == 13);
    *p = made(40000, -40000);
    CHECK(5, a.v == -25536 && a.h == 25536);
    for (i = 0; i < 7; i++)
        row.cells[i] = 0;
    done = filled(row, 2);
    CHECK(6, done.cells[1] == 0 && done.cells[2] == 'c' && done.cells[6] == 'g' && row.cells[6] == 0);
    large = big(5);
    CHECK(7, total(large, 40) == 980 && large.numbers[0] == 5 && total(big(1), 3) == 6);
    a = made(1, 2);
    CHECK(8, place(&a)->v == 2 && place(place(&a))->v == 4 && a.v == 4 && (*place(p)).h == 2);
    b = fetched();
    a = fetched();
    CHECK(9, b.v == 1 && a.v == 2 && origin.v == 2);
    origin = sum(origin, fetched());
    CHECK(10, origin.v == 5);
    CHECK(11, length(line(made(1, 2), made(5, 9))) == 11 && length(turned(line(made(0, 0), made(1, 1)))) == -2);
    it.to = fetched();
    CHECK(12, it.to.v == 6 && origin.v == 6);
    made(9, 9);
    CHECK(13, a.v == 2);
    return 0;
}
