/* A cache with room for two pages. To make room it empties the page that was used longest ago and
   keeps its handle. Such a page is read again when it is needed. A page that is closed is made
   purgeable, and its handle is forgotten: the heap may take the page, and nobody looks at it. */
#include "mac.h"
#include "print.h"

enum { kPages = 4, kRoom = 2, kSize = 8 };

static Handle gPages[kPages];
static long gUsed[kPages], gClock;

/* Reads a page. Here a page has its own letter in each byte. */
static void ReadPage(short page)
{
    short i;

    Print("read ");
    PrintNumber(page);
    putchar('\n');
    for (i = 0; i < kSize; i++)
        (*gPages[page])[i] = 'a' + page;
}

/* Whether the page is there: it was opened, and it is not empty. */
static short IsThere(short page)
{
    return gPages[page] && *gPages[page];
}

/* Empties the page that was used longest ago, if the cache is full. */
static void MakeRoom(void)
{
    short page, oldest, count;

    oldest = -1;
    count = 0;
    for (page = 0; page < kPages; page++)
        if (IsThere(page)) {
            count++;
            if (oldest < 0 || gUsed[page] < gUsed[oldest])
                oldest = page;
        }
    if (count == kRoom)
        EmptyHandle(gPages[oldest]);
}

static Handle GetPage(short page)
{
    if (!IsThere(page)) {
        MakeRoom();
        if (gPages[page])
            ReallocateHandle(gPages[page], kSize);
        else
            gPages[page] = NewHandle(kSize);
        ReadPage(page);
    }
    gUsed[page] = ++gClock;
    return gPages[page];
}

static void ClosePage(short page)
{
    HPurge(gPages[page]);
    gPages[page] = 0;
}

static void Show(short page)
{
    putchar(**GetPage(page));
    putchar('\n');
}

int main(void)
{
    Show(0);
    Show(1);
    Show(0);
    Show(2);        /* empties page 1 */
    Show(1);        /* is read again; page 0 is emptied */
    ClosePage(2);
    Show(0);        /* there is room now */
    Show(2);        /* a new page; page 1 is emptied */
    return gClock;
}
