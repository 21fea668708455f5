/* The Memory Manager as the examples of handlecheck use it: handles, and nine routines of the sample table (data/table.toml).
   This header is the project's own. Its prototypes are cut down: the real ones have Size, Ptr and OSErr, and MemError beside them. */
typedef char *Ptr;
typedef Ptr *Handle;
Handle NewHandle(long n);
void HLock(Handle h);
void HUnlock(Handle h);
void HPurge(Handle h);
void HNoPurge(Handle h);
char HGetState(Handle h);
void HSetState(Handle h, char s);
int getchar(void);
int putchar(int c);
