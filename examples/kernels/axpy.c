/* y = a * x + y over whole arrays: every address comes of the index alone. */
#include <stdio.h>

#define LENGTH 200

int x[LENGTH];
int y[LENGTH];

int main(void)
{
    int i;
    int sum;

    for (i = 0; i < LENGTH; i++) {
        x[i] = 3 * i - 7;
        y[i] = i * i % 101;
    }
    for (i = 0; i < LENGTH; i++)
        y[i] = 5 * x[i] + y[i];
    sum = 0;
    for (i = 0; i < LENGTH; i++)
        sum += y[i];
    printf("%d %d %d\n", y[0], y[LENGTH - 1], sum);
    return 0;
}
