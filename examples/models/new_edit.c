/* NewEdit in C: a record whose text has one character. */
#include "edit.h"
#include "memory.h"

pascal EditHandle NewEdit(void)
{
    EditHandle edit;
    Handle text;

    edit = (EditHandle)NewHandle(sizeof(EditRec));
    text = NewHandle(1);
    if (!edit || !text)
        return 0;
    **text = 'x';
    (**edit).length = 1;
    (**edit).text = text;
    return edit;
}
