// Strings of bytes, eight to a word: joined, compared, and hashed.
#include "heap.h"

struct Word {
    long bits;
};
struct Text {
    long length;
    struct Word GC *words;
};
typedef struct Word GC *Words;
typedef struct Text GC *Text;
Words new_words(long count) MAKES(struct.Word);
Text new_text(long count) MAKES(struct.Text);

static Text empty(long room) {
    Text text = new_text(1);
    text->words = new_words((room + 7) / 8);
    return text;
}

static long byte_at(Text text, long at) {
    return text->words[at >> 3].bits >> (at & 7) * 8 & 255;
}

static void push(Text text, long byte) {
    long at = text->length++;
    text->words[at >> 3].bits |= (byte & 255) << (at & 7) * 8;
}

static Text joined(Text front, Text back) {
    Text whole = empty(front->length + back->length);
    for (long i = 0; i < front->length; i++)
        push(whole, byte_at(front, i));
    for (long i = 0; i < back->length; i++)
        push(whole, byte_at(back, i));
    return whole;
}

static long compare(Text left, Text right) {
    long least = left->length < right->length ? left->length : right->length;
    for (long i = 0; i < least; i++) {
        long difference = byte_at(left, i) - byte_at(right, i);
        if (difference)
            return difference;
    }
    return left->length - right->length;
}

static Text read_text(void) {
    long length = read_number();
    Text text = empty(length);
    for (long i = 0; i < length; i++)
        push(text, read_number());
    return text;
}

int main(void) {
    Text first = read_text(), second = read_text();
    Text both = joined(first, second);
    unsigned long hash = 14695981039346656037ul;
    for (long i = 0; i < both->length; i++)
        hash = (hash ^ (unsigned long)byte_at(both, i)) * 1099511628211ul;
    print_number((long)hash);
    print_number(compare(first, second));
    print_number(compare(both, first));
    print_number(both->words[0].bits);
    return 0;
}
