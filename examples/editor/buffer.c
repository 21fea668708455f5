/* An editor's buffer, which grows by a few bytes when it is full. */
#include "mac.h"
#include "buffer.h"

enum { kStep = 4 };

short BufferOpen(Buffer *b)
{
    b->text = NewHandle(kStep);
    b->length = 0;
    b->caret = 0;
    return b->text != 0;
}

/* Puts a character in front of the caret. Says whether there was room. */
short BufferInsert(Buffer *b, char c)
{
    Ptr here;

    if (b->length == GetHandleSize(b->text)) {
        SetHandleSize(b->text, b->length + kStep);
        if (b->length == GetHandleSize(b->text))
            return 0;
    }
    here = *b->text + b->caret;     /* after the block has grown, since growing may move it */
    BlockMove(here, here + 1, b->length - b->caret);
    *here = c;
    b->length++;
    b->caret++;
    return 1;
}

/* Removes the character in front of the caret. */
void BufferDelete(Buffer *b)
{
    Ptr here;

    if (b->caret > 0) {
        here = *b->text + b->caret;
        BlockMove(here, here - 1, b->length - b->caret);
        b->length--;
        b->caret--;
    }
}

void BufferMove(Buffer *b, long by)
{
    if (b->caret + by >= 0 && b->caret + by <= b->length)
        b->caret += by;
}

void BufferShow(Buffer *b)
{
    long i;

    for (i = 0; i <= b->length; i++) {
        if (i == b->caret)
            putchar('|');
        if (i < b->length)
            putchar((*b->text)[i]);
    }
    putchar('\n');
}
