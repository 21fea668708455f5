/* FindText in C, for one number. */
#include "edit.h"
#include "memory.h"

static Handle gText;

pascal Handle FindText(short number)
{
    if (!gText)
        gText = NewHandle(1);
    return gText;
}
