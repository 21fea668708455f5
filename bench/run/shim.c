/* The routines of the programs of this folder, so that gcc can build them. Nothing moves. */
#include <stdlib.h>

char **NewHandle(long size)
{
    char **h = malloc(sizeof *h);

    if (h != 0)
        *h = malloc((size_t)size);
    return h;
}

void HLock(char **h)
{
    (void)h;
}

void HUnlock(char **h)
{
    (void)h;
}
