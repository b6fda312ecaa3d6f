// Powers of a square matrix, its rows side by side in one object.
#include "heap.h"

struct Number {
    long value;
};
typedef struct Number GC *Matrix;
Matrix new_matrix(long count) MAKES(struct.Number);

static Matrix product(Matrix left, Matrix right, long size) {
    Matrix made = new_matrix(size * size);
    for (long row = 0; row < size; row++)
        for (long column = 0; column < size; column++) {
            long sum = 0;
            for (long k = 0; k < size; k++)
                sum += left[row * size + k].value * right[k * size + column].value;
            made[row * size + column].value = sum;
        }
    return made;
}

int main(void) {
    long size = read_number();
    Matrix matrix = new_matrix(size * size);
    for (long i = 0; i < size * size; i++)
        matrix[i].value = read_number();
    Matrix power = matrix;
    for (long left = read_number(); left > 1; left--)
        power = product(power, matrix, size);
    for (long i = 0; i < size * size; i++)
        print_number(power[i].value);
    return 0;
}
