// Closures as objects: what one does is told by a tag, what it keeps stands in its fields.
#include "heap.h"

enum { ADDS, MULTIPLIES, COMPOSES, TWICE };
struct Closure {
    long tag;
    long kept;
    struct Closure GC *first;
    struct Closure GC *second;
};
typedef struct Closure GC *Closure;
Closure new_closure(long count) MAKES(struct.Closure);

static __attribute__((noinline)) Closure make(long tag, long kept, Closure first, Closure second) {
    Closure closure = new_closure(1);
    closure->tag = tag;
    closure->kept = kept;
    closure->first = first;
    closure->second = second;
    return closure;
}

static long apply(Closure closure, long x) {
    switch (closure->tag) {
    case ADDS:
        return x + closure->kept;
    case MULTIPLIES:
        return x * closure->kept;
    case COMPOSES:
        return apply(closure->first, apply(closure->second, x));
    case TWICE:
        return apply(closure->first, apply(closure->first, x));
    }
    __builtin_unreachable();
}

int main(void) {
    Closure adds = make(ADDS, read_number(), 0, 0);
    Closure multiplies = make(MULTIPLIES, read_number(), 0, 0);
    Closure both = make(COMPOSES, 0, adds, multiplies);
    Closure twice = make(TWICE, 0, both, 0);
    print_number(apply(both, 10));
    print_number(apply(twice, 10));
    print_number(apply(make(COMPOSES, 0, twice, adds), 1));
    return 0;
}
