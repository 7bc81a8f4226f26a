/* Words are looked for in an array that stands in order: which half comes of what was loaded. */
#include <stdio.h>

#define LENGTH 256

int values[LENGTH];

int main(void)
{
    int i;
    int low;
    int high;
    int middle;
    int found;
    int sum;

    for (i = 0; i < LENGTH; i++)
        values[i] = 3 * i + 1;
    found = 0;
    sum = 0;
    for (i = 0; i < 100; i++) {
        low = 0;
        high = LENGTH;
        while (low < high) {
            middle = (low + high) / 2;
            if (values[middle] < 8 * i)
                low = middle + 1;
            else
                high = middle;
        }
        sum += low;
        if (low < LENGTH && values[low] == 8 * i)
            found++;
    }
    printf("%d %d\n", found, sum);
    return 0;
}
