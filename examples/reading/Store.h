/* Store.h: notes in relocatable blocks. */
#ifndef STORE_H
#define STORE_H

#include "Memory.h"
#include "Config.h"

typedef struct Note {
    short length;
    char text[62];
} Note, *NotePtr, **NoteHandle;

#define NOTE(h) (**(NoteHandle)(h))
#define MIN(a, b) ((a) < (b) ? (a) : (b))

Handle NewNote(short length);
short NoteLength(Handle h);

#endif
