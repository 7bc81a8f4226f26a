/* A stencil of three points on a line, from one array to the other and back. */
#include <stdio.h>

#define LENGTH 96
#define ROUNDS 4

int first[LENGTH];
int second[LENGTH];

int main(void)
{
    int i;
    int round;
    int sum;

    for (i = 0; i < LENGTH; i++)
        first[i] = i * 37 % 211;
    for (round = 0; round < ROUNDS; round++) {
        for (i = 1; i < LENGTH - 1; i++)
            second[i] = (first[i - 1] + 2 * first[i] + first[i + 1]) >> 2;
        for (i = 1; i < LENGTH - 1; i++)
            first[i] = second[i];
    }
    sum = 0;
    for (i = 0; i < LENGTH; i++)
        sum += first[i] * (i + 1);
    printf("%d %d\n", first[LENGTH / 2], sum);
    return 0;
}
