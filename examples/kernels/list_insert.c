/* Words are put into a list that stays in order, through the address of each link. */
#include <stdio.h>

#define NODES 48

struct node {
    int value;
    struct node *next;
};

struct node nodes[NODES];
struct node *first;

void insert(struct node *new)
{
    struct node **link;

    link = &first;
    while (*link != NULL && (*link)->value < new->value)
        link = &(*link)->next;
    new->next = *link;
    *link = new;
}

int main(void)
{
    int i;
    int last;
    int wrong;
    struct node *at;

    for (i = 0; i < NODES; i++) {
        nodes[i].value = i * 29 % 101;
        insert(&nodes[i]);
    }
    wrong = 0;
    last = -1;
    for (at = first; at != NULL; at = at->next) {
        if (at->value < last)
            wrong++;
        last = at->value;
    }
    printf("%d %d %d\n", first->value, last, wrong);
    return wrong;
}
