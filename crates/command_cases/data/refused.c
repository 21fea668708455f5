/* A careful program: it looks whether there was memory, and asks MemError why not. */
pascal char **NewHandle(long size);
pascal short MemError(void);

int main(void)
{
    char **name;

    name = NewHandle(32);
    if (!name)
        return MemError();
    **name = 'x';
    return **name;
}
