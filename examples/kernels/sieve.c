/* Multiples are struck out of an array of bytes, and what is left is counted. */
#include <stdio.h>

#define LIMIT 400

unsigned char struck[LIMIT];

int main(void)
{
    int i;
    int k;
    int primes;
    int last;

    for (i = 2; i * i < LIMIT; i++)
        if (!struck[i])
            for (k = i * i; k < LIMIT; k += i)
                struck[k] = 1;
    primes = 0;
    last = 0;
    for (i = 2; i < LIMIT; i++)
        if (!struck[i]) {
            primes++;
            last = i;
        }
    printf("%d %d\n", primes, last);
    return 0;
}
