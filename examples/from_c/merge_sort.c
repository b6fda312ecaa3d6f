// Lists are split, sorted and merged; each step makes new nodes.
#include "heap.h"

struct Node {
    long value;
    struct Node GC *next;
};
typedef struct Node GC *List;
List new_node(long count) MAKES(struct.Node);

static List with_first(long value, List rest) {
    List node = new_node(1);
    node->value = value;
    node->next = rest;
    return node;
}

static List merged(List left, List right) {
    if (!left)
        return right;
    if (!right)
        return left;
    if (left->value <= right->value)
        return with_first(left->value, merged(left->next, right));
    return with_first(right->value, merged(left, right->next));
}

static List sorted(List list) {
    if (!list || !list->next)
        return list;
    List odd = 0, even = 0;
    for (; list; list = list->next) {
        List made = with_first(list->value, odd);
        odd = even;
        even = made;
    }
    return merged(sorted(odd), sorted(even));
}

int main(void) {
    List list = 0;
    for (long left = read_number(); left > 0; left--)
        list = with_first(read_number(), list);
    for (list = sorted(list); list; list = list->next)
        print_number(list->value);
    return 0;
}
