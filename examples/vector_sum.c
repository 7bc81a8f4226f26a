/* The sum of two vectors: each element is loaded once, and the access processor runs ahead by as much as the queues hold. */
#include <stdio.h>

#define LENGTH 64

int a[LENGTH];
int b[LENGTH];
int c[LENGTH];

int main(void)
{
    int i;
    int total;

    for (i = 0; i < LENGTH; i++) {
        a[i] = 3 * i;
        b[i] = 1000 - i;
    }
    for (i = 0; i < LENGTH; i++)
        c[i] = a[i] + b[i];
    total = 0;
    for (i = 0; i < LENGTH; i++)
        total += c[i];
    printf("c[0] %d, c[63] %d, total %d\n", c[0], c[63], total);
    return 0;
}
