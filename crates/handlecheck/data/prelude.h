/* The routines that straight programs call. */
char **NewHandle(long n); void HLock(char **h);
void HUnlock(char **h); int putchar(int c);
