/* An event loop. The text is read with getchar. A mouse click moves the pen, a key adds a letter,
   an update event draws the text, and the key `q` ends the program. The routines of the Toolbox are
   plain routines of events.toml. */
#include "mac.h"

static Handle gText;

/* Adds a letter to the text. */
static void AddLetter(char letter)
{
    long length;

    length = GetHandleSize(gText);
    SetHandleSize(gText, length + 1);
    if (GetHandleSize(gText) == length)
        SysBeep(10);
    else
        (*gText)[length] = letter;
}

static void ReadText(void)
{
    int c;

    while ((c = getchar()) != -1)
        AddLetter(c);
}

/* Draws the text. DrawText may move memory and is given a pointer, so the block is locked. */
static void Draw(void)
{
    HLock(gText);
    DrawText(*gText, 0, GetHandleSize(gText));
    HUnlock(gText);
}

/* Does what an event asks for. Says whether the program goes on. */
static short DoEvent(const EventRecord *event)
{
    char key;

    switch (event->what) {
    case mouseDown:
        MoveTo(event->where.h, event->where.v);
        break;
    case keyDown:
        key = event->message & 0xFF;
        if (key == 'q')
            return 0;
        AddLetter(key);
        break;
    case updateEvt:
        Draw();
        break;
    }
    return 1;
}

int main(void)
{
    EventRecord event;
    short going;

    gText = NewHandle(0);
    if (!gText)
        return memFullErr;
    ReadText();
    going = 1;
    while (going) {
        SystemTask();
        if (GetNextEvent(everyEvent, &event))
            going = DoEvent(&event);
    }
    return GetHandleSize(gText);
}
