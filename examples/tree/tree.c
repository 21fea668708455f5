/* A tree of words in the order of the alphabet, with a count for each. Insert and Show are
   recursive. A node is a block, and a new one may move all others: so Insert first gets the handle
   of the subtree, and then makes the pointer into the node. */
#include "mac.h"
#include "print.h"

typedef struct Node {
    char letters[8];
    short count;
    struct Node **left, **right;
} Node, **Tree;

/* Below 0 if the word is in front of the node's word, 0 if it is the same, above 0 if it is after it. */
static short Compare(Tree tree, const char *word)
{
    const char *mine;

    for (mine = (*tree)->letters; *mine && *mine == *word; mine++)
        word++;
    return *word - *mine;
}

static Tree NewNode(const char *word)
{
    Tree node;
    short i;

    node = (Tree) NewHandle(sizeof(Node));
    (*node)->count = 1;
    (*node)->left = (*node)->right = 0;
    for (i = 0; i < 8; i++)
        (*node)->letters[i] = *word && i < 7 ? *word++ : 0;
    return node;
}

/* The tree with the word in it. */
static Tree Insert(Tree tree, const char *word)
{
    Tree child;
    short order;

    if (!tree)
        return NewNode(word);
    order = Compare(tree, word);
    if (order == 0)
        (*tree)->count++;
    else if (order < 0) {
        child = Insert((*tree)->left, word);
        (*tree)->left = child;
    } else {
        child = Insert((*tree)->right, word);
        (*tree)->right = child;
    }
    return tree;
}

static void Show(Tree tree)
{
    if (tree) {
        Show((*tree)->left);
        Print((*tree)->letters);
        if ((*tree)->count > 1) {
            putchar('*');
            PrintNumber((*tree)->count);
        }
        putchar(' ');
        Show((*tree)->right);
    }
}

int main(void)
{
    static const char *const words[] = {
        "heap", "zone", "block", "handle", "heap", "lock", "purge", "block", "heap"
    };
    Tree tree;
    short i;

    tree = 0;
    for (i = 0; i < sizeof(words) / sizeof(words[0]); i++)
        tree = Insert(tree, words[i]);
    Show(tree);
    putchar('\n');
    return 0;
}
