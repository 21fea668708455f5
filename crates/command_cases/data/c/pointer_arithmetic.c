/* Steps of pointers, and pointers in structs (3.3.2.1, 3.3.6). */
#define CHECK(number, condition) do { if (!(condition)) return number; } while (0)

struct Three { char a[3]; };
struct Six { char a; short b; char c; };
struct Node { int value; struct Node *next; };

struct Three threes[4];
struct Six sixes[4];
struct Node nodes[5];
long longs[6] = { 10, 11, 12, 13, 14, 15 };
char text[8] = "abcdefg";

void insert(struct Node **at, struct Node *it)
{
    while (*at && (*at)->value < it->value)
        at = &(*at)->next;
    it->next = *at;
    *at = it;
}

struct Node *reversed(struct Node *list)
{
    struct Node *done = 0, *rest;
    for (; list; list = rest) {
        rest = list->next;
        list->next = done;
        done = list;
    }
    return done;
}

int main(void)
{
    long *p = longs + 2, **pp = &p, ***ppp = &pp;
    char *s = text, *t;
    struct Three *three = threes;
    struct Six *six = &sixes[3];
    struct Node *list = 0, *n;
    int i = -2, sum;
    unsigned char step = 2;

    CHECK(1, *p == 12 && p[i] == 10 && p[-1] == 11 && *(p + 3) == 15 && *(3 + p) == 15 && *(p - 2) == 10);
    p += 3;
    CHECK(2, *p == 15 && *(p -= step) == 13 && *--p == 12 && *p-- == 12 && *p == 11 && *++p == 12);
    CHECK(3, *p++ == 12 && *p == 13 && (*p)++ == 13 && *p == 14 && ++*p == 15 && p == longs + 3);
    **pp = 99;
    (*pp)++;
    ***ppp += 1;
    CHECK(4, longs[3] == 99 && longs[4] == 15 && *p == 15 && **pp == 15 && p - longs == 4);
    *ppp = &p;
    **ppp = longs;
    CHECK(5, p == longs && *p++ + *p++ == 21 && p == &longs[2]);
    three++;
    three->a[2] = 'x';
    CHECK(6, threes[1].a[2] == 'x' && (three + 1)->a - threes[0].a == 6 && sizeof *three == 3);
    six[-1].b = 500;
    (--six)->c = 'y';
    CHECK(7, sixes[2].b == 500 && six->c == 'y' && (*six).b == 500 && six - sixes == 2 && &six->c - &sixes[0].a == 16);
    t = s;
    while (*t)
        t++;
    CHECK(8, t - s == 7 && t[-1] == 'g' && *(t - 7) == 'a');
    while (t > s)
        *--t += 1;
    CHECK(9, text[0] == 'b' && text[6] == 'h' && text[7] == 0);
    t = text + 7;
    s = text;
    while (s < --t) {
        char spare = *s;
        *s++ = *t;
        *t = spare;
    }
    CHECK(10, text[0] == 'h' && text[3] == 'e' && text[6] == 'b');
    for (i = 0; i < 5; i++) {
        nodes[i].value = i * 3 % 5;
        insert(&list, nodes + i);
    }
    for (n = list, sum = 0; n; n = n->next)
        sum = sum * 10 + n->value;
    CHECK(11, sum == 1234 && list == nodes);
    list = reversed(list);
    for (n = list, sum = 0; n != 0; n = n->next)
        sum = sum * 10 + n->value;
    CHECK(12, sum == 43210 && list->next->next->value == 2 && list->next->next->next->next->next == 0);
    p = &longs[5] - 5;
    CHECK(13, p == longs && &*p == p && *&p == longs && &p[3] == p + 3 && &3[p] == longs + 3);
    p = longs + 65536 * 0 - -1;
    CHECK(14, *p == 11);
    six = sixes;
    CHECK(15, &six[1].a == (char *)&sixes[1] && (struct Six *)&six->a == sixes);
    return 0;
}
