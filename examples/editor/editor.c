/* An editor of one line. The bytes of the input are its keys, numbered as on the Macintosh: 08
   deletes, 1c and 1d are the left and the right arrow, and 0d is Return, which prints the line. If
   there is no room for a character, it prints `!`. */
#include "mac.h"
#include "buffer.h"

enum { kDelete = 0x08, kReturn = 0x0D, kLeft = 0x1C, kRight = 0x1D };

int main(void)
{
    Buffer b;
    int key;

    if (!BufferOpen(&b))
        return memFullErr;
    while ((key = getchar()) >= 0) {
        switch (key) {
        case kDelete:
            BufferDelete(&b);
            break;
        case kLeft:
            BufferMove(&b, -1);
            break;
        case kRight:
            BufferMove(&b, 1);
            break;
        case kReturn:
            BufferShow(&b);
            break;
        default:
            if (!BufferInsert(&b, key))
                putchar('!');
        }
    }
    DisposeHandle(b.text);
    return 0;
}
