/* What the examples call of the Memory Manager, the Toolbox and the C library. The header is
   this project's own. Its prototypes are simplified: the real ones have Size, OSErr and Boolean,
   and there is MemError too. What a routine does is said by the table that a run is given:
   table.toml, or events.toml. */
typedef char *Ptr;
typedef Ptr *Handle;
typedef unsigned char *StringPtr, **StringHandle;
typedef struct { short v, h; } Point;
typedef struct { short top, left, bottom, right; } Rect;
typedef struct { short what; long message, when; Point where; short modifiers; } EventRecord;

enum { memFullErr = -108 };
enum { mouseDown = 1, keyDown = 3, updateEvt = 6, everyEvent = -1 };

pascal Handle NewHandle(long size);
pascal void DisposeHandle(Handle h);
pascal long GetHandleSize(Handle h);
pascal void SetHandleSize(Handle h, long size);
pascal void EmptyHandle(Handle h);
pascal void ReallocateHandle(Handle h, long size);
pascal void HLock(Handle h);
pascal void HUnlock(Handle h);
pascal void HPurge(Handle h);
pascal void HNoPurge(Handle h);
pascal char HGetState(Handle h);
pascal void HSetState(Handle h, char state);
pascal Ptr NewPtr(long size);
pascal void DisposePtr(Ptr p);
pascal void BlockMove(const void *from, void *to, long count);

pascal short GetNextEvent(short mask, EventRecord *event);
pascal void SystemTask(void);
pascal void MoveTo(short h, short v);
pascal void DrawText(const void *text, short first, short count);
pascal void SysBeep(short ticks);

int getchar(void);
int putchar(int c);
