/* A record of text, as a manual of the time has it, and the routines that serve it. */
typedef char *Ptr;
typedef char **Handle;

typedef struct {
    short length;
    Handle text;
} EditRec, *EditPtr, **EditHandle;

pascal EditHandle NewEdit(void);
pascal short CopyToHandle(Ptr from, Handle *to, long size);
pascal Ptr PlainAddress(Ptr address);
pascal Handle FindText(short number);
