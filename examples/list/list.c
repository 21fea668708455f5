/* A list of numbers. Each node is a block, and has the handle of the next one. No pointer into a
   node is kept over a call that may move memory. It is not tested whether NewHandle finds memory. */
#include "mac.h"
#include "print.h"

typedef struct Node {
    long value;
    struct Node **next;
} Node, **NodeHandle;

/* Puts a new node in front of the list. */
static NodeHandle Push(NodeHandle list, long value)
{
    NodeHandle node;

    node = (NodeHandle) NewHandle(sizeof(Node));
    (*node)->value = value;
    (*node)->next = list;
    return node;
}

static NodeHandle Reverse(NodeHandle list)
{
    NodeHandle done, next;

    done = 0;
    while (list) {
        next = (*list)->next;
        (*list)->next = done;
        done = list;
        list = next;
    }
    return done;
}

static void Show(NodeHandle list)
{
    while (list) {
        PrintNumber((*list)->value);
        list = (*list)->next;
        Print(list ? ", " : "\n");
    }
}

static void Dispose(NodeHandle list)
{
    NodeHandle next;

    while (list) {
        next = (*list)->next;
        DisposeHandle((Handle) list);
        list = next;
    }
}

int main(void)
{
    NodeHandle list;
    long i;

    list = 0;
    for (i = 1; i <= 5; i++)
        list = Push(list, i * i);
    Show(list);
    list = Reverse(list);
    Show(list);
    Dispose(list);
    return 0;
}
