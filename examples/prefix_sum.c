/* Sums of all fronts of an array, in place: each store is loaded again in the next turn but one. */
#include <stdio.h>

#define LENGTH 50

int values[LENGTH];

int main(void)
{
    int i;

    for (i = 0; i < LENGTH; i++)
        values[i] = (i * i) % 17;
    for (i = 1; i < LENGTH; i++)
        values[i] += values[i - 1];
    printf("%d %d %d\n", values[0], values[LENGTH / 2], values[LENGTH - 1]);
    return 0;
}
