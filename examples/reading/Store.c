/* Store.c: notes in relocatable blocks. */
#include "Store.h"

Handle NewNote(short length)
{
    Handle h;

    h = NewHandle((Size)sizeof(Note));
    if (h) {
        CHECK(length >= 0);
        NOTE(h).length = MIN(length, 62);
    }
    return h;
}

short NoteLength(Handle h)
{
    return NOTE(h).length;
}
