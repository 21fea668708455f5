/* 100,000 blocks, each made and disposed of. */
typedef char *Ptr, **Handle;
Handle NewHandle(long size);
void DisposeHandle(Handle h);

int main(void)
{
    int i;

    for (i = 0; i < 100000; ++i)
        DisposeHandle(NewHandle(16L));
    return 0;
}
