/* Structs are copied whole (3.3.16.1). */
#define CHECK(number, condition) do { if (!(condition)) return number; } while (0)

struct Inner { char tag; short at[3]; };
struct Outer { char front; struct Inner pair[2]; long end; };
struct Letters { char text[5]; };
struct Node { int value; struct Node *next; };

struct Outer one = { 'a', { { 'b', { 1, 2, 3 } }, { 'c', { 4, 5, 6 } } }, 70000 }, two;
struct Letters words[3] = { "ab", "cdef", "ghij" };

int main(void)
{
    struct Outer local, *p = &local, *q = &one;
    struct Inner copy;
    struct Letters spare;
    struct Node x, y;
    int i;

    two = one;
    CHECK(1, two.front == 'a' && two.pair[0].at[2] == 3 && two.pair[1].tag == 'c' && two.pair[1].at[0] == 4 && two.end == 70000);
    one.pair[1].at[0] = 40;
    CHECK(2, two.pair[1].at[0] == 4);
    local = two;
    local.pair[0] = local.pair[1];
    CHECK(3, local.pair[0].tag == 'c' && local.pair[0].at[1] == 5 && local.front == 'a' && local.end == 70000);
    *p = *q;
    CHECK(4, p->pair[1].at[0] == 40 && local.pair[0].tag == 'b');
    p->pair[1] = q->pair[0];
    CHECK(5, local.pair[1].tag == 'b' && local.pair[1].at[0] == 1 && local.end == 70000);
    copy = one.pair[1];
    copy.at[1]++;
    CHECK(6, copy.at[0] == 40 && copy.at[1] == 6 && one.pair[1].at[1] == 5);
    one = one;
    CHECK(7, one.pair[1].at[0] == 40 && one.end == 70000);
    spare = words[0];
    words[0] = words[2];
    words[2] = spare;
    CHECK(8, words[0].text[0] == 'g' && words[2].text[1] == 'b' && words[2].text[2] == 0 && words[1].text[3] == 'f');
    for (i = 2; i > 0; i--)
        words[i] = words[i - 1];
    CHECK(9, words[1].text[0] == 'g' && words[2].text[0] == 'c' && words[0].text[3] == 'j');
    local = two = one;
    CHECK(10, local.pair[1].at[0] == 40 && two.pair[1].at[0] == 40);
    x.value = 1;
    x.next = &y;
    y.value = 2;
    y.next = &x;
    y = x;
    CHECK(11, y.value == 1 && y.next == &y && x.next == &y);
    y.next = &x;
    x = *y.next->next;
    CHECK(12, x.value == 1 && x.next == &x);
    two.pair[0] = *&one.pair[1];
    CHECK(13, two.pair[0].at[0] == 40 && two.pair[0].tag == 'c');
    p = i ? &two : &local;
    *p = one;
    CHECK(14, p == &local && sizeof(struct Letters) == 5 && sizeof words == 15);
    local = i == 0 ? two : one;
    CHECK(15, local.pair[0].at[0] == 40);
    local = (i++, one);
    CHECK(16, i == 1 && local.pair[0].at[0] == 1);
    return 0;
}
