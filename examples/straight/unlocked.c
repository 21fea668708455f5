#include "prelude.h"
#define LETTER 65

int main(void)
{
    char **name;
    char **other;
    char *p;
    name = NewHandle(4);
    p = *name;
    *p = LETTER;
    other = NewHandle(4);
    putchar(*p);
    return 0;
}
