// A runtime that never moves: what the rewritten module calls.
#include <stdio.h>
#include <stdlib.h>

typedef struct { long number; void *other; } Cell;

void *new_cells(long count) __asm__("gc_new.struct.Cell");
void *new_cells(long count) { return calloc(count, sizeof(Cell)); }
void print_i64(long number) { printf("%ld\n", number); }
long read_i64(void) { long number = 0; return scanf("%ld", &number) == 1 ? number : 0; }
void poll(void) __asm__("gc.safepoint_poll");
void poll(void) {}
void gc_check(void *base, void *pointer, long kind) { (void)base, (void)pointer, (void)kind; }
_Bool gc_same(void *base, void *pointer, void *other_base, void *other) { return base == other_base && pointer == other; }
