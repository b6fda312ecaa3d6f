// A heap in an array: numbers come out in their order.
#include "heap.h"

struct Item {
    long rank;
    struct Item GC *what;
};
typedef struct Item GC *Items;
Items new_items(long count) MAKES(struct.Item);

static void swap(Items items, long i, long j) {
    long rank = items[i].rank;
    Items what = items[i].what;
    items[i].rank = items[j].rank;
    items[i].what = items[j].what;
    items[j].rank = rank;
    items[j].what = what;
}

static void rise(Items items, long at) {
    while (at > 0 && items[at].rank < items[(at - 1) / 2].rank) {
        swap(items, at, (at - 1) / 2);
        at = (at - 1) / 2;
    }
}

static void sink(Items items, long count) {
    long at = 0;
    for (;;) {
        long least = at, child = 2 * at + 1;
        if (child < count && items[child].rank < items[least].rank)
            least = child;
        if (child + 1 < count && items[child + 1].rank < items[least].rank)
            least = child + 1;
        if (least == at)
            return;
        swap(items, at, least);
        at = least;
    }
}

int main(void) {
    long count = read_number();
    Items items = new_items(count);
    for (long i = 0; i < count; i++) {
        items[i].rank = read_number();
        items[i].what = new_items(1);
        items[i].what->rank = i;
        rise(items, i);
    }
    while (count > 0) {
        print_number(items[0].rank);
        print_number(items[0].what->rank);
        swap(items, 0, --count);
        sink(items, count);
    }
    return 0;
}
