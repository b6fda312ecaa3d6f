// Refused: floating point, and a global.
#include "heap.h"

struct Sample {
    long value;
};
typedef struct Sample GC *Samples;
Samples new_samples(long count) MAKES(struct.Sample);
long seen;

static double average(Samples samples, long count) {
    double sum = 0;
    for (long i = 0; i < count; i++)
        sum += (double)samples[i].value;
    return sum / (double)count;
}

int main(void) {
    long count = read_number();
    Samples samples = new_samples(count);
    for (long i = 0; i < count; i++)
        samples[i].value = read_number();
    seen += count;
    print_number((long)average(samples, count));
    return 0;
}
