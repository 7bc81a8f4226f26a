/* A list: each address comes from the load before it, so that the access processor waits for its own loads. */
#include <stdio.h>

struct node {
    int value;
    struct node *next;
};

struct node nodes[40];

int main(void)
{
    struct node *first;
    struct node *n;
    int i;
    int total;
    int length;

    first = 0;
    for (i = 0; i < 40; i++) {
        n = &nodes[(i * 7) % 40];
        n->value = i;
        n->next = first;
        first = n;
    }
    total = 0;
    length = 0;
    for (n = first; n != 0; n = n->next) {
        total += n->value * n->value;
        length++;
    }
    printf("%d nodes, sum of squares %d\n", length, total);
    return 0;
}
