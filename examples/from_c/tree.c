// A search tree: keys go in, and come out in their order with how deep each stands.
#include "heap.h"

struct Tree {
    long key;
    struct Tree GC *less;
    struct Tree GC *more;
};
typedef struct Tree GC *Tree;
Tree new_tree(long count) MAKES(struct.Tree);

static Tree with_key(Tree tree, long key) {
    if (!tree) {
        Tree made = new_tree(1);
        made->key = key;
        return made;
    }
    if (key < tree->key)
        tree->less = with_key(tree->less, key);
    else if (key > tree->key)
        tree->more = with_key(tree->more, key);
    return tree;
}

static long depth(Tree tree) {
    if (!tree)
        return 0;
    long less = depth(tree->less), more = depth(tree->more);
    return 1 + (less > more ? less : more);
}

static void print_keys(Tree tree, long level) {
    if (!tree)
        return;
    print_keys(tree->less, level + 1);
    print_number(tree->key * 100 + level);
    print_keys(tree->more, level + 1);
}

int main(void) {
    Tree tree = 0;
    for (long left = read_number(); left > 0; left--)
        tree = with_key(tree, read_number());
    print_number(depth(tree));
    print_keys(tree, 0);
    return 0;
}
