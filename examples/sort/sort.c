/* Sorts the numbers in a block, and notes each step in a second block, which grows. The numbers are
   sorted by a pointer into their block, so it is locked: it would move when the notes grow. */
#include "mac.h"
#include "print.h"

static Handle gNotes;

/* Adds a letter to the notes. */
static void Note(char letter)
{
    long length;

    length = GetHandleSize(gNotes);
    SetHandleSize(gNotes, length + 1);
    (*gNotes)[length] = letter;
}

/* Sorts by insertion. The block is locked for the time, and its state is put back. */
static void Sort(Handle numbers)
{
    short *a, value, count, i, at;
    char state;

    state = HGetState(numbers);
    HLock(numbers);
    a = (short *) *numbers;
    count = GetHandleSize(numbers) / sizeof(short);
    for (i = 1; i < count; i++) {
        value = a[i];
        for (at = i; at > 0 && a[at - 1] > value; at--)
            a[at] = a[at - 1];
        a[at] = value;
        Note(at == i ? '.' : 'a' + at);
    }
    HSetState(numbers, state);
}

static void Show(Handle numbers)
{
    short count, i;

    count = GetHandleSize(numbers) / sizeof(short);
    for (i = 0; i < count; i++) {
        PrintNumber(((short *) *numbers)[i]);
        putchar(i + 1 < count ? ' ' : '\n');
    }
}

int main(void)
{
    static const short first[] = { 31, -4, 15, 92, -65, 35 };
    Handle numbers;
    short i;

    gNotes = NewHandle(0);
    numbers = NewHandle(sizeof(first));
    BlockMove(first, *numbers, sizeof(first));
    Show(numbers);
    Sort(numbers);
    Show(numbers);
    for (i = 0; i < GetHandleSize(gNotes); i++)
        putchar((*gNotes)[i]);
    putchar('\n');
    return 0;
}
