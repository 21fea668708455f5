/* The routine fills a record, and the record holds a handle. */
#include "edit.h"

int main(void)
{
    EditHandle edit;

    edit = NewEdit();
    if (!edit)
        return 1;
    return **(**edit).text;
}
