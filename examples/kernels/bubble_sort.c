/* Neighbours are exchanged until all stand in order. */
#include <stdio.h>

#define LENGTH 28

int values[LENGTH];

int main(void)
{
    int i;
    int end;
    int kept;
    int sum;

    for (i = 0; i < LENGTH; i++)
        values[i] = i * 67 % 113;
    for (end = LENGTH - 1; end > 0; end--)
        for (i = 0; i < end; i++)
            if (values[i] > values[i + 1]) {
                kept = values[i];
                values[i] = values[i + 1];
                values[i + 1] = kept;
            }
    sum = 0;
    for (i = 0; i < LENGTH; i++)
        sum = (sum * 3 + values[i]) % 10007;
    printf("%d %d %d\n", values[0], values[LENGTH - 1], sum);
    return 0;
}
