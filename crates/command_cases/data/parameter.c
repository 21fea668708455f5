/* The routine writes a handle through a parameter. */
#include "edit.h"

int main(void)
{
    Handle copy;

    copy = 0;
    if (CopyToHandle("abc", &copy, 3))
        return 1;
    return **copy;
}
