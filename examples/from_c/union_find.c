// Sets that are joined: each member leads to another, paths are halved as they are walked.
#include "heap.h"

struct Member {
    long size;
    struct Member GC *leader;
};
struct Place {
    struct Member GC *member;
};
typedef struct Member GC *Member;
typedef struct Place GC *Places;
Member new_member(long count) MAKES(struct.Member);
Places new_places(long count) MAKES(struct.Place);

static Member leader(Member member) {
    while (member->leader) {
        if (member->leader->leader)
            member->leader = member->leader->leader;
        member = member->leader;
    }
    return member;
}

int main(void) {
    long count = read_number();
    Places places = new_places(count);
    for (long i = 0; i < count; i++) {
        places[i].member = new_member(1);
        places[i].member->size = 1;
    }
    long sets = count;
    for (;;) {
        long i = read_number();
        if (i < 0)
            break;
        Member left = leader(places[i].member);
        Member right = leader(places[read_number()].member);
        if (left != right) {
            Member greater = left->size < right->size ? right : left;
            Member smaller = left->size < right->size ? left : right;
            smaller->leader = greater;
            greater->size += smaller->size;
            sets--;
        }
        print_number(leader(left)->size);
    }
    print_number(sets);
    return 0;
}
