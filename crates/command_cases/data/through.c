/* A pointer is stored through one struct and loaded through another. */
struct One { char *start; };
struct Other { char *start; };

int main(void)
{
    struct One one;
    char letter;

    letter = 'x';
    one.start = &letter;
    return *((struct Other *)&one)->start;
}
