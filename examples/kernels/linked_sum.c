/* A list that lies in its array in another order is walked: each address is loaded. */
#include <stdio.h>

#define NODES 150

struct node {
    int value;
    struct node *next;
};

struct node nodes[NODES];

int main(void)
{
    int i;
    int round;
    int sum;
    struct node *at;

    for (i = 0; i < NODES; i++) {
        nodes[i].value = i * 5 % 31;
        nodes[i].next = &nodes[(i + 77) % NODES];
    }
    nodes[73].next = NULL;
    sum = 0;
    for (round = 0; round < 3; round++)
        for (at = &nodes[0]; at != NULL; at = at->next)
            sum = (sum * 3 + at->value) % 10007;
    printf("%d\n", sum);
    return 0;
}
