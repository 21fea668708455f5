/* Enumerations (3.1.2.5, 3.5.2.2). An enumeration has the numbers of an int here. */
#define CHECK(number, condition) do { if (!(condition)) return number; } while (0)

enum Day { monday, tuesday, wednesday = 10, thursday, friday = 3, saturday, sunday = saturday + 2 };
enum Sign { minus = -1, none, plus };
enum { bits = 1 << 4, mask = bits - 1, letter = 'a', big = 2147483647, least = -2147483647 - 1, size = sizeof(short), chosen = bits > 3 ? 5 : 6 };
enum Sign global, list[3] = { plus, minus };
int counts[plus + 2] = { 1, 2, 3 }, by_day[sunday];
struct Dated { enum Day day; enum { low, high } level; };

enum Sign sign(int n) { return n < 0 ? minus : n > 0 ? plus : none; }
enum Sign opposite(enum Sign s) { return -s; }
int next(enum Day d) { switch (d) { case monday: return tuesday; case thursday: return friday; case sunday: return monday; default: return d + 1; } }

int main(void)
{
    enum Sign s = minus, *p = &s;
    enum Day d;
    struct Dated dated;
    unsigned u = 1;

    CHECK(1, monday == 0 && tuesday == 1 && wednesday == 10 && thursday == 11 && friday == 3 && saturday == 4 && sunday == 6);
    CHECK(2, minus == -1 && none == 0 && plus == 1 && minus < none && global == none);
    CHECK(3, bits == 16 && mask == 15 && letter == 97 && big + least == -1 && size == 2 && chosen == 5);
    CHECK(4, sizeof(enum Sign) == 4 && sizeof s == 4 && sizeof plus == 4 && sizeof list == 12 && sizeof counts == 12);
    CHECK(5, s < 0 && s == -1 && -s == 1 && (s > u) && !(s < 0u) && s + 1 == none);
    CHECK(6, list[0] == plus && list[1] == minus && list[2] == none && counts[s + 1] == 1 && counts[plus + 1] == 3);
    CHECK(7, sign(-5) == minus && sign(0) == none && sign(9) == plus && opposite(plus) == minus && opposite(s) == 1);
    CHECK(8, next(monday) == 1 && next(thursday) == 3 && next(sunday) == 0 && next(20) == 21);
    s = 300;
    CHECK(9, s == 300 && s / 7 == 42 && (char)s == 44);
    s = plus;
    s++;
    s += minus * 5;
    CHECK(10, s == -3 && *p == -3 && s-- == -3 && --s == -5 && (s <<= 1) == -10 && ~s == 9);
    *p = none;
    CHECK(11, s == 0 && !s && (s || plus) && (s ? 1 : plus) == 1);
    for (d = monday; d <= sunday; d++)
        by_day[d % sunday] += d;
    CHECK(12, d == 7 && by_day[0] == 6 && by_day[5] == 5);
    dated.day = saturday;
    dated.level = high;
    CHECK(13, dated.day + dated.level == 5 && sizeof dated == 8 && low == 0);
    {
        enum { monday = 50, other };
        enum Day { tuesday = 70 } local = tuesday;
        CHECK(14, monday == 50 && other == 51 && tuesday == 70 && local == 70 && wednesday == 10);
    }
    CHECK(15, monday == 0 && tuesday == 1);
    s = 3000000000U;
    CHECK(16, s < 0 && s == (int)3000000000U);
    return 0;
}
