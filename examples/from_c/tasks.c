// Tasks that take turns: each adds to a number that they share.
#include "heap.h"

struct Shared {
    long sum;
    long done;
    long step;
};
typedef struct Shared GC *Shared;
Shared new_shared(long count) MAKES(struct.Shared);
void start_task(void (*work)(Shared), Shared given) __asm__("task_start");

void adds(Shared shared) {
    long step = ++shared->step;
    for (long i = 0; i < 3; i++) {
        Shared spare = new_shared(1);
        spare->sum = shared->sum;
        shared->sum = spare->sum + step;
    }
    shared->done++;
}

int main(void) {
    Shared shared = new_shared(1);
    start_task(adds, shared);
    start_task(adds, shared);
    while (shared->done < 2)
        new_shared(1);
    print_number(shared->sum);
    return 0;
}
