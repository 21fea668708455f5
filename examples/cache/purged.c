/* A cache of pages that stay purgeable while they are kept. A page that was purged is read again,
   as programs of the time do. On the reference machine the test for it is a use of a purged handle,
   so a run in which the page is purged stops there. cache.c empties its pages itself. */
#include "mac.h"
#include "print.h"

enum { kPages = 2, kSize = 8 };

static Handle gPages[kPages];

static void ReadPage(short page)
{
    short i;

    Print("read ");
    PrintNumber(page);
    putchar('\n');
    for (i = 0; i < kSize; i++)
        (*gPages[page])[i] = 'a' + page;
}

static void Show(short page)
{
    if (!gPages[page]) {
        gPages[page] = NewHandle(kSize);
        ReadPage(page);
        HPurge(gPages[page]);
    } else if (!*gPages[page]) {
        ReallocateHandle(gPages[page], kSize);
        ReadPage(page);
        HPurge(gPages[page]);
    }
    putchar(**gPages[page]);
    putchar('\n');
}

int main(void)
{
    Show(0);
    Show(1);
    Show(0);
    return 0;
}
