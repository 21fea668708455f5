/* Two accounts, and the classic fault: Transfer copies the master pointer of an account, and uses
   the copy after a call that may move memory. On a heap that never moves nobody sees it. */
#include "mac.h"
#include "print.h"

typedef struct { long balance; Handle history; } Account, *AccountPtr, **AccountHandle;

static AccountHandle OpenAccount(long balance)
{
    AccountHandle account;
    Handle history;

    account = (AccountHandle) NewHandle(sizeof(Account));
    history = NewHandle(0);
    (*account)->balance = balance;
    (*account)->history = history;
    return account;
}

/* Adds an entry to the history of an account. It may move memory. */
static void Record(AccountHandle account, char entry)
{
    Handle history;
    long length;

    history = (*account)->history;
    length = GetHandleSize(history);
    SetHandleSize(history, length + 1);
    (*history)[length] = entry;
}

static void Transfer(AccountHandle from, AccountHandle to, long amount)
{
    AccountPtr target;

    target = *to;                       /* a copy of the master pointer */
    (*from)->balance -= amount;
    Record(from, '-');                  /* may move the account */
    target->balance += amount;          /* the fault */
    Record(to, '+');
}

static void Show(AccountHandle account)
{
    Handle history;
    long i;

    PrintNumber((*account)->balance);
    history = (*account)->history;
    putchar(' ');
    for (i = 0; i < GetHandleSize(history); i++)
        putchar((*history)[i]);
    putchar('\n');
}

int main(void)
{
    AccountHandle mine, yours;

    mine = OpenAccount(100);
    yours = OpenAccount(50);
    Transfer(mine, yours, 30);
    Show(mine);
    Show(yours);
    return 0;
}
