/* The routine gives back its argument. */
#include "edit.h"

int main(void)
{
    char letter;

    letter = 'x';
    return *PlainAddress(&letter);
}
