// A machine whose stack is a list: numbers are pushed, and operators take two.
#include "heap.h"

struct Frame {
    long value;
    struct Frame GC *below;
};
typedef struct Frame GC *Stack;
Stack new_frame(long count) MAKES(struct.Frame);

static Stack pushed(Stack below, long value) {
    Stack frame = new_frame(1);
    frame->value = value;
    frame->below = below;
    return frame;
}

static long operate(long operator, long left, long right) {
    switch (operator) {
    case 1:
        return left + right;
    case 2:
        return left - right;
    case 3:
        return left * right;
    case 4:
        return right ? left / right : 0;
    case 5:
        return right ? left % right : left;
    case 6:
        return left < right ? left : right;
    default:
        return left ^ right;
    }
}

int main(void) {
    Stack stack = 0;
    for (;;) {
        long operator = read_number();
        if (operator < 0)
            break;
        if (operator == 0) {
            stack = pushed(stack, read_number());
        } else {
            if (!stack || !stack->below)
                return 1;
            stack = pushed(stack->below->below, operate(operator, stack->below->value, stack->value));
        }
    }
    for (; stack; stack = stack->below)
        print_number(stack->value);
    return 0;
}
