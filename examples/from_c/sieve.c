// Primes, 64 numbers to a word.
#include "heap.h"

struct Word {
    unsigned long bits;
};
typedef struct Word GC *Words;
Words new_words(long count) MAKES(struct.Word);

int main(void) {
    long end = read_number();
    Words words = new_words(end / 64 + 1);
    for (long i = 2; i * i < end; i++)
        if (!(words[i / 64].bits >> i % 64 & 1))
            for (long j = i * i; j < end; j += i)
                words[j / 64].bits |= 1ul << j % 64;
    long primes = 0;
    for (long i = 2; i < end; i++)
        primes += !(words[i / 64].bits >> i % 64 & 1);
    print_number(primes);
    return 0;
}
