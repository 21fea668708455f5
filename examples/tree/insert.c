/* A tree of numbers, with a fault that is hard to see. An assignment evaluates its left side first,
   so Insert has a pointer into the node before the call on the right side. The call makes a new
   node, and may move this one: then the pointer is stale when the value is stored. tree.c does it
   in two steps. */
#include "mac.h"
#include "print.h"

typedef struct Node {
    long value;
    struct Node **left, **right;
} Node, **Tree;

static Tree NewNode(long value)
{
    Tree node;

    node = (Tree) NewHandle(sizeof(Node));
    (*node)->value = value;
    (*node)->left = (*node)->right = 0;
    return node;
}

static Tree Insert(Tree tree, long value)
{
    if (!tree)
        return NewNode(value);
    if (value < (*tree)->value)
        (*tree)->left = Insert((*tree)->left, value);
    else
        (*tree)->right = Insert((*tree)->right, value);
    return tree;
}

static void Show(Tree tree)
{
    if (tree) {
        Show((*tree)->left);
        PrintNumber((*tree)->value);
        putchar(' ');
        Show((*tree)->right);
    }
}

int main(void)
{
    Tree tree;

    tree = Insert(0, 50);
    tree = Insert(tree, 70);
    tree = Insert(tree, 20);
    tree = Insert(tree, 60);
    Show(tree);
    putchar('\n');
    return 0;
}
