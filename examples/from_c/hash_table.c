// A hash table with chains: words are counted, and the table grows by moving its entries.
#include "heap.h"

struct Entry {
    long key;
    long count;
    struct Entry GC *next;
};
struct Slot {
    struct Entry GC *first;
};
struct Table {
    long size;
    long used;
    struct Slot GC *slots;
};
typedef struct Entry GC *Entry;
typedef struct Slot GC *Slots;
typedef struct Table GC *Table;
Entry new_entry(long count) MAKES(struct.Entry);
Slots new_slots(long count) MAKES(struct.Slot);
Table new_table(long count) MAKES(struct.Table);

static unsigned long place(long key, long size) {
    return ((unsigned long)key * 0x9e3779b97f4a7c15ul >> 32) & (unsigned long)(size - 1);
}

static void grow(Table table) {
    long size = table->size * 2;
    Slots slots = new_slots(size);
    for (long i = 0; i < table->size; i++) {
        Entry entry = table->slots[i].first;
        while (entry) {
            Entry next = entry->next;
            unsigned long at = place(entry->key, size);
            entry->next = slots[at].first;
            slots[at].first = entry;
            entry = next;
        }
    }
    table->slots = slots;
    table->size = size;
}

static long count(Table table, long key) {
    Entry entry = table->slots[place(key, table->size)].first;
    for (; entry; entry = entry->next)
        if (entry->key == key)
            return ++entry->count;
    if (table->used == table->size)
        grow(table);
    entry = new_entry(1);
    unsigned long at = place(key, table->size);
    entry->key = key;
    entry->count = 1;
    entry->next = table->slots[at].first;
    table->slots[at].first = entry;
    table->used++;
    return 1;
}

int main(void) {
    Table table = new_table(1);
    table->size = 2;
    table->slots = new_slots(2);
    for (long left = read_number(); left > 0; left--)
        print_number(count(table, read_number()));
    print_number(table->used);
    print_number(table->size);
    return 0;
}
