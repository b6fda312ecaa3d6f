// How far each node of a graph is from the first, by a search in breadth.
#include "heap.h"

struct Edge {
    struct Node GC *to;
    struct Edge GC *next;
};
struct Node {
    long distance;
    struct Edge GC *edges;
    struct Node GC *queued;
};
typedef struct Edge GC *Edge;
struct Place {
    struct Node GC *node;
};
typedef struct Node GC *Node;
typedef struct Place GC *Places;
Edge new_edge(long count) MAKES(struct.Edge);
Node new_node(long count) MAKES(struct.Node);
Places new_places(long count) MAKES(struct.Place);

static void search(Node start) {
    Node last = start;
    start->distance = 0;
    for (Node at = start; at; at = at->queued)
        for (Edge edge = at->edges; edge; edge = edge->next)
            if (edge->to->distance < 0) {
                edge->to->distance = at->distance + 1;
                last->queued = edge->to;
                last = edge->to;
            }
}

int main(void) {
    long count = read_number();
    Places places = new_places(count);
    for (long i = 0; i < count; i++) {
        Node node = new_node(1);
        node->distance = -1;
        places[i].node = node;
    }
    for (;;) {
        long from = read_number();
        if (from < 0)
            break;
        long to = read_number();
        Edge edge = new_edge(1);
        edge->to = places[to].node;
        edge->next = places[from].node->edges;
        places[from].node->edges = edge;
    }
    search(places[0].node);
    for (long i = 0; i < count; i++)
        print_number(places[i].node->distance);
    return 0;
}
