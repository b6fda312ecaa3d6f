// A list is built in front, reversed, and summed.
#include "heap.h"

struct Node {
    long value;
    struct Node GC *next;
};
typedef struct Node GC *List;
List new_node(long count) MAKES(struct.Node);

static List with_first(long value, List rest) {
    List node = new_node(1);
    node->value = value;
    node->next = rest;
    return node;
}

static List reversed(List list) {
    List done = 0;
    for (; list; list = list->next)
        done = with_first(list->value, done);
    return done;
}

int main(void) {
    List list = 0;
    for (long left = read_number(); left > 0; left--)
        list = with_first(read_number(), list);
    long sum = 0;
    for (List at = reversed(list); at; at = at->next) {
        print_number(at->value);
        sum += at->value;
    }
    print_number(sum);
    return 0;
}
