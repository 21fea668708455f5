/* The text that is edited, and where the caret is. The block has room for more than the text. */
typedef struct {
    Handle text;
    long length, caret;
} Buffer;

short BufferOpen(Buffer *b);
short BufferInsert(Buffer *b, char c);
void BufferDelete(Buffer *b);
void BufferMove(Buffer *b, long by);
void BufferShow(Buffer *b);
