// A pointer into the one array or the other, kept while both move.
#include "heap.h"

struct Cell {
    long number;
    struct Cell GC *other;
};
typedef struct Cell GC *Cells;
Cells new_cells(long count) MAKES(struct.Cell);

int main(void) {
    long count = read_number();
    Cells left = new_cells(count), right = new_cells(count);
    Cells greatest = left;
    Cells least = right;
    for (long i = 0; i < count; i++) {
        left[i].number = read_number();
        right[i].number = read_number();
        Cells greater = left[i].number > right[i].number ? &left[i] : &right[i];
        Cells smaller = left[i].number > right[i].number ? &right[i] : &left[i];
        greater->other = new_cells(1);
        greater->other->number = i;
        if (i == 0 || greater->number > greatest->number)
            greatest = greater;
        if (i == 0 || smaller->number < least->number)
            least = smaller;
    }
    if (count > 0) {
        print_number(greatest->number);
        print_number(greatest->other->number);
        print_number(least->number);
    }
    return 0;
}
