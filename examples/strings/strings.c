/* Strings in blocks. A Pascal string has its length in front, a C string has a byte 0 at its end. */
#include "mac.h"

/* A new block with a copy of a Pascal string. The string itself is not in a block that moves. */
static StringHandle MakeString(const unsigned char *text)
{
    StringHandle made;

    made = (StringHandle) NewHandle(*text + 1);
    BlockMove(text, *made, *text + 1);
    return made;
}

/* Adds the second string to the end of the first. The pointers into the two blocks are made after the
   first block has grown. */
static void Append(StringHandle first, StringHandle second)
{
    long length, more;

    length = **first;
    more = **second;
    if (length + more > 255)
        more = 255 - length;
    SetHandleSize((Handle) first, length + more + 1);
    BlockMove(*second + 1, *first + length + 1, more);
    **first = length + more;
}

/* A new block with the same text as a C string. */
static Handle CopyToC(StringHandle text)
{
    Handle made;

    made = NewHandle(**text + 1);
    BlockMove(*text + 1, *made, **text);
    (*made)[**text] = 0;
    return made;
}

static void PrintP(StringPtr text)
{
    short i;

    for (i = 1; i <= *text; i++)
        putchar(text[i]);
    putchar('\n');
}

static void PrintC(const char *text)
{
    while (*text)
        putchar(*text++);
    putchar('\n');
}

int main(void)
{
    StringHandle greeting, name;
    Handle c;
    char *letter;

    greeting = MakeString((StringPtr) "\pHello, ");
    name = MakeString((StringPtr) "\pworld");
    Append(greeting, name);
    PrintP(*greeting);
    Append(greeting, name);
    c = CopyToC(greeting);
    for (letter = *c; *letter; letter++)        /* nothing moves in this loop */
        if (*letter >= 'a' && *letter <= 'z')
            *letter -= 'a' - 'A';
    PrintC(*c);
    return **greeting;
}
