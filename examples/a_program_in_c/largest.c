// Reads a count and as many numbers into the cells of one object, makes a further object
// for each, and prints the largest number.
// Pointers into the heap that moves are in address space 1.
typedef struct Cell Cell;
typedef Cell __attribute__((address_space(1))) *Ref;
struct Cell { long number; Ref other; };

Ref new_cells(long count) __asm__("gc_new.struct.Cell");
void print(long number) __asm__("print_i64");
long read(void) __asm__("read_i64");
long run(void) __asm__("main");

long run(void) {
    long count = read();
    Ref cells = new_cells(count);
    Ref largest = cells;
    for (long i = 0; i < count; i++) {
        Ref cell = &cells[i];
        cell->number = read();
        cell->other = new_cells(1);
        if (cell->number > largest->number)
            largest = cell;
    }
    print(largest->number);
    return count;
}
