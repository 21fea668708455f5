/* The routine gives one handle twice. */
#include "edit.h"

int main(void)
{
    Handle first;
    Handle second;

    first = FindText(128);
    second = FindText(128);
    if (!first || !second)
        return 1;
    **first = 'x';
    return **second;
}
