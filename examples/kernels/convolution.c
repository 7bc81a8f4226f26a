/* A filter of eight weights over a signal: products that are added up, for each place anew. */
#include <stdio.h>

#define LENGTH 80
#define WEIGHTS 8

short signal[LENGTH];
short weight[WEIGHTS] = { 1, -3, 5, 9, 9, 5, -3, 1 };
int filtered[LENGTH];

int main(void)
{
    int i;
    int k;
    int sum;

    for (i = 0; i < LENGTH; i++)
        signal[i] = (short)(i * 73 % 256 - 128);
    for (i = 0; i + WEIGHTS <= LENGTH; i++) {
        sum = 0;
        for (k = 0; k < WEIGHTS; k++)
            sum += weight[k] * signal[i + k];
        filtered[i] = sum >> 4;
    }
    sum = 0;
    for (i = 0; i < LENGTH; i++)
        sum = (3 * sum + filtered[i]) % 10007;
    printf("%d %d\n", filtered[11], sum);
    return 0;
}
