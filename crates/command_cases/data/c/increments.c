/* `++` and `--` (3.3.2.4, 3.3.3.1). */
#define CHECK(number, condition) do { if (!(condition)) return number; } while (0)

struct Counted { char c; unsigned char uc; short s; int list[3]; } it, *at = &it;
char global = 127;

int main(void)
{
    char c = 127, *p, text[4] = "abc";
    unsigned char uc = 255;
    short s = -32768;
    unsigned short us = 65535;
    int i = 2147483647, n = 0, array[3], *q = array, **pp = &q;
    unsigned u = 0;
    long l = 0;

    CHECK(1, c++ == 127 && c == -128 && c-- == -128 && c == 127 && ++c == -128 && --c == 127);
    CHECK(2, uc++ == 255 && uc == 0 && uc-- == 0 && uc == 255 && ++uc == 0 && --uc == 255);
    CHECK(3, s-- == -32768 && s == 32767 && ++s == -32768 && us++ == 65535 && us == 0 && --us == 65535);
    CHECK(4, ++i < 0 && i-- < 0 && i == 2147483647 && u-- == 0 && u == 4294967295U && ++u == 0);
    CHECK(5, --l == -1 && l++ == -1 && l == 0);
    CHECK(6, global++ == 127 && global == -128 && ++global == -127);
    it.c = -128;
    CHECK(7, it.c-- == -128 && it.c == 127 && --it.uc == 255 && at->uc++ == 255 && at->uc == 0 && ++at->s == 1 && it.s++ == 1 && (*at).s == 2);
    array[0] = 10, array[1] = 20, array[2] = 30;
    CHECK(8, *q++ == 10 && *q == 20 && (*q)++ == 20 && *q == 21 && ++*q == 22 && *++q == 30 && *--q == 22 && *q-- == 22 && q == array);
    CHECK(9, *(*pp)++ == 10 && q == array + 1 && ++**pp == 23 && *++*pp == 30 && (**pp)-- == 30 && array[2] == 29);
    CHECK(10, array[n++] == 10 && array[n++] == 23 && array[n--] == 29 && n == 1 && array[--n] == 10 && array[++n]++ == 23 && array[1] == 24);
    p = text;
    CHECK(11, *p++ == 'a' && *p++ == 'b' && p - text == 2 && ++*p == 'd' && text[2] == 'd' && *--p == 'b' && -*p-- == -'b' && !*p++ == 0);
    CHECK(12, at++ == &it && at == &it + 1 && --at == &it && at->list == it.list);
    at->list[1] = 5;
    n = 1;
    CHECK(13, at->list[n++]++ == 5 && at->list[1] == 6 && n == 2 && --at->list[--n] == 5 && n == 1);
    n = 3;
    CHECK(14, n++ + n++ == 7 && n == 5 && ++n + n-- == 12 && n == 5);
    CHECK(15, - -n == 5 && -n-- == -5 && n == 4 && !--n == 0 && ~n++ == -4 && n == 4);
    CHECK(16, sizeof n++ == 4 && n == 4 && sizeof(++c) == 1 && c == 127);
    i = n++;
    CHECK(17, i == 4 && n == 5);
    n++, ++n;
    (void)n--;
    CHECK(18, n == 6);
    c = 'a';
    text[0] = c++;
    text[1] = c++;
    CHECK(19, text[0] == 'a' && text[1] == 'b' && c == 'c');
    (n)++;
    ++(n);
    (*(&n))++;
    CHECK(20, n == 9);
    return 0;
}
