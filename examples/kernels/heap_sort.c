/* A heap is made in an array, and taken apart from its root. */
#include <stdio.h>

#define LENGTH 48

int values[LENGTH];

void sift(int root, int end)
{
    int child;
    int kept;

    while (2 * root + 1 < end) {
        child = 2 * root + 1;
        if (child + 1 < end && values[child] < values[child + 1])
            child++;
        if (values[root] >= values[child])
            return;
        kept = values[root];
        values[root] = values[child];
        values[child] = kept;
        root = child;
    }
}

int main(void)
{
    int i;
    int kept;
    int wrong;

    for (i = 0; i < LENGTH; i++)
        values[i] = i * 89 % 199;
    for (i = LENGTH / 2 - 1; i >= 0; i--)
        sift(i, LENGTH);
    for (i = LENGTH - 1; i > 0; i--) {
        kept = values[0];
        values[0] = values[i];
        values[i] = kept;
        sift(0, i);
    }
    wrong = 0;
    for (i = 1; i < LENGTH; i++)
        if (values[i - 1] > values[i])
            wrong++;
    printf("%d %d %d\n", values[0], values[LENGTH - 1], wrong);
    return wrong;
}
