// Numbers with bounds: checked sums and products, the greater and the smaller, and bits counted, turned and swapped.
#include "heap.h"

struct Number {
    long value;
};
typedef struct Number GC *Numbers;
Numbers new_number(long count) MAKES(struct.Number);

static Numbers boxed(long value) {
    Numbers number = new_number(1);
    number->value = value;
    return number;
}

int main(void) {
    long a = read_number(), b = read_number(), result;
    Numbers kept = boxed(a > b ? a : b);
    print_number(__builtin_add_overflow(a, b, &result));
    print_number(result);
    print_number(__builtin_sub_overflow(a, b, &result));
    print_number(result);
    print_number(__builtin_mul_overflow(a, b, &result));
    print_number(result);
    unsigned long sum;
    print_number(__builtin_add_overflow((unsigned long)a, (unsigned long)b, &sum));
    print_number(__builtin_mul_overflow((unsigned long)a, (unsigned long)b, &sum));
    print_number(__builtin_popcountl((unsigned long)a));
    print_number((long)__builtin_bswap64((unsigned long)a));
    print_number((long)__builtin_rotateleft64((unsigned long)a, (unsigned long)b));
    print_number(a < 0 ? -a : a);
    print_number(kept->value);
    if (kept->value < a)
        __builtin_trap();
    return 0;
}
