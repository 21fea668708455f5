/* PlainAddress in C. */
#include "edit.h"

pascal Ptr PlainAddress(Ptr address)
{
    return address;
}
