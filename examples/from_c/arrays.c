// Arrays of numbers: read, turned round in place, and their running sums.
#include "heap.h"

struct Number {
    long value;
};
typedef struct Number GC *Numbers;
Numbers new_numbers(long count) MAKES(struct.Number);

static void turn_round(Numbers numbers, long count) {
    for (long i = 0, j = count - 1; i < j; i++, j--) {
        long value = numbers[i].value;
        numbers[i].value = numbers[j].value;
        numbers[j].value = value;
    }
}

static Numbers running_sums(Numbers numbers, long count) {
    Numbers sums = new_numbers(count + 1);
    for (long i = 0; i < count; i++)
        sums[i + 1].value = sums[i].value + numbers[i].value;
    return sums;
}

int main(void) {
    long count = read_number();
    Numbers numbers = new_numbers(count);
    for (long i = 0; i < count; i++)
        numbers[i].value = read_number();
    turn_round(numbers, count);
    Numbers sums = running_sums(numbers, count);
    for (long i = 0; i <= count; i++)
        print_number(sums[i].value);
    return 0;
}
