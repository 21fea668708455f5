/* Rectangles that are passed, returned and assigned by value. A copy of a record stays good when the
   block that it was copied from moves. */
#include "mac.h"
#include "print.h"

typedef struct { Rect frame; char name[2]; } Window;

static Rect MakeRect(short top, short left, short bottom, short right)
{
    Rect r;

    r.top = top;
    r.left = left;
    r.bottom = bottom;
    r.right = right;
    return r;
}

/* The argument is a copy, and is changed. */
static Rect Inset(Rect r, short by)
{
    r.top += by;
    r.left += by;
    r.bottom -= by;
    r.right -= by;
    return r;
}

static Rect Union(Rect a, Rect b)
{
    if (b.top < a.top)
        a.top = b.top;
    if (b.left < a.left)
        a.left = b.left;
    if (b.bottom > a.bottom)
        a.bottom = b.bottom;
    if (b.right > a.right)
        a.right = b.right;
    return a;
}

static void Show(const char *what, Rect r)
{
    Print(what);
    PrintNumber(r.top);
    putchar(' ');
    PrintNumber(r.left);
    putchar(' ');
    PrintNumber(r.bottom);
    putchar(' ');
    PrintNumber(r.right);
    putchar('\n');
}

int main(void)
{
    Window **windows, first;
    Rect all;

    windows = (Window **) NewHandle(2 * sizeof(Window));
    (*windows)[0].frame = MakeRect(40, 10, 200, 300);
    (*windows)[0].name[0] = 'A';
    first = (*windows)[0];                      /* a copy of the whole record */
    (*windows)[1] = first;
    (*windows)[1].frame = Inset(first.frame, -20);
    SetHandleSize((Handle) windows, 3 * sizeof(Window));
    (*windows)[2].frame = Inset(MakeRect(100, 100, 120, 400), 5);
    Show("first ", first.frame);
    Show("second ", (*windows)[1].frame);
    Show("third ", (*windows)[2].frame);
    all = Union(Union(first.frame, (*windows)[1].frame), (*windows)[2].frame);
    Show("all ", all);
    putchar((*windows)[1].name[0]);
    putchar('\n');
    return sizeof(Window);
}
