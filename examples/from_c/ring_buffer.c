// A queue in a ring that grows where it is full.
#include "heap.h"

struct Number {
    long value;
};
struct Queue {
    long first;
    long length;
    long room;
    struct Number GC *numbers;
};
typedef struct Number GC *Numbers;
typedef struct Queue GC *Queue;
Numbers new_numbers(long count) MAKES(struct.Number);
Queue new_queue(long count) MAKES(struct.Queue);

static void push(Queue queue, long value) {
    if (queue->length == queue->room) {
        Numbers wider = new_numbers(queue->room * 2);
        for (long i = 0; i < queue->length; i++)
            wider[i].value = queue->numbers[(queue->first + i) % queue->room].value;
        queue->numbers = wider;
        queue->first = 0;
        queue->room *= 2;
    }
    queue->numbers[(queue->first + queue->length) % queue->room].value = value;
    queue->length++;
}

static long pop(Queue queue) {
    long value = queue->numbers[queue->first].value;
    queue->first = (queue->first + 1) % queue->room;
    queue->length--;
    return value;
}

int main(void) {
    Queue queue = new_queue(1);
    queue->room = 2;
    queue->numbers = new_numbers(2);
    for (;;) {
        long value = read_number();
        if (value == 0)
            break;
        if (value > 0)
            push(queue, value);
        else if (queue->length)
            print_number(pop(queue));
    }
    print_number(queue->length);
    print_number(queue->room);
    return 0;
}
