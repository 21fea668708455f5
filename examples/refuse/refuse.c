/* Copies the input to the output by way of a buffer. It takes the largest buffer that it gets, and
   prints its size. If it gets none, it gives up with the error number of a full heap. */
#include "mac.h"
#include "print.h"

enum { kLargest = 32, kSmallest = 8 };

static Handle OpenBuffer(void)
{
    Handle buffer;
    long size;

    for (size = kLargest; size >= kSmallest; size /= 2) {
        buffer = NewHandle(size);
        if (buffer)
            return buffer;
    }
    return 0;
}

/* Fills the buffer from the input. Gives the number of bytes. */
static long Fill(Handle buffer)
{
    long count;
    int c;

    for (count = 0; count < GetHandleSize(buffer); count++) {
        c = getchar();
        if (c < 0)
            return count;
        (*buffer)[count] = c;
    }
    return count;
}

int main(void)
{
    Handle buffer;
    long count, i;

    buffer = OpenBuffer();
    if (!buffer) {
        Print("no memory\n");
        return memFullErr;
    }
    Print("buffer of ");
    PrintNumber(GetHandleSize(buffer));
    putchar('\n');
    while ((count = Fill(buffer)) > 0) {
        putchar('[');
        for (i = 0; i < count; i++)
            putchar((*buffer)[i]);
        Print("]\n");
    }
    DisposeHandle(buffer);
    return 0;
}
