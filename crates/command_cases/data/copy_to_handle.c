/* CopyToHandle in C. The character that it copies is not in a block, so no call can move it. */
#include "edit.h"
#include "memory.h"

pascal short CopyToHandle(Ptr from, Handle *to, long size)
{
    Handle made;

    made = NewHandle(size);
    if (!made)
        return -108;
    BlockMove(from, *made, size);
    *to = made;
    return 0;
}
