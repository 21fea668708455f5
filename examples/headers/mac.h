/* A small part of the Toolbox as the examples of handlecheck use it: rectangles, events, TextEdit and locks.
   This header is the project's own. Its records are cut down: the real TERec has many more fields. Its prototypes are simplified: the real
   GetNextEvent gives a Boolean. The number after InsetRect shows the form of an inline trap word, and is no trap of the system. */
typedef char *Ptr;
typedef Ptr *Handle;
typedef struct { short v, h; } Point;
typedef struct { short top, left, bottom, right; } Rect;
typedef struct { short what; long message, when; Point where; short modifiers; } EventRecord;
typedef struct { Rect destRect, viewRect; short teLength; Handle hText; } TERec;
typedef TERec *TEPtr, **TEHandle;
pascal TEHandle TENew(const Rect *d, const Rect *v);
pascal void TEKey(short key, TEHandle te);
pascal void TEUpdate(const Rect *r, TEHandle te);
pascal short GetNextEvent(short mask, EventRecord *e);
pascal void DrawString(const unsigned char *s);
pascal void InsetRect(Rect *r, short dh, short dv) = 0xA000;
pascal void HLock(Handle h);
pascal char HGetState(Handle h);
pascal void HSetState(Handle h, char s);
