/* Notes.c: makes two notes. */
#include "Store.h"
#include "Config.h"

#define TYPE 'NOTE'

int putchar(int c);

int main(void)
{
    Handle first;
    Handle second;

    first = NewNote(12);
    second = NewNote(80);
    if (TYPE == 'NOTE' && first && second)
        putchar('0' + NoteLength(first) % 10);
    return 0;
}
