// Refused: a call through a pointer, memory of the frame, and a pointer as a number.
#include "heap.h"

struct Node {
    long value;
    struct Node GC *next;
};
typedef struct Node GC *List;
List new_node(long count) MAKES(struct.Node);
void fill(long *room);

static __attribute__((noinline)) long fold(List list, long (*step)(long, long), long start) {
    for (; list; list = list->next)
        start = step(start, list->value);
    return start;
}

static long adds(long a, long b) {
    return a + b;
}

static long multiplies(long a, long b) {
    return a * b;
}

int main(void) {
    long room[2];
    fill(room);
    List list = new_node(1);
    list->value = room[1];
    print_number(fold(list, read_number() ? adds : multiplies, room[0]));
    print_number((long)list & 7);
    return 0;
}
