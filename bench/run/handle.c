/* 10,000,000 loads and as many stores through a locked handle. */
typedef char *Ptr, **Handle;
Handle NewHandle(long size);
void HLock(Handle h);
void HUnlock(Handle h);

int main(void)
{
    Handle h = NewHandle(4L);
    int i;

    HLock(h);
    for (i = 0; i < 4; ++i)
        (*h)[i] = (char)i;
    for (i = 0; i < 10000000; ++i)
        (*h)[i & 3] = (char)((*h)[(i + 1) & 3] + i);
    HUnlock(h);
    return (*h)[0] & 127;
}
