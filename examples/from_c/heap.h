// What the programs here have of their runtime: objects in address space 1, numbers in and out.
#define GC __attribute__((address_space(1)))
#define MAKES(layout) __asm__("gc_new." #layout)
long read_number(void) __asm__("read_i64");
void print_number(long) __asm__("print_i64");

