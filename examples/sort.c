/* Sorting by insertion: how far an element moves depends on the values. */
#include <stdio.h>

#define LENGTH 24

int values[LENGTH];

int main(void)
{
    unsigned seed;
    int i;
    int j;
    int moved;

    seed = 2463534242u;
    for (i = 0; i < LENGTH; i++) {
        seed ^= seed << 13;
        seed ^= seed >> 17;
        seed ^= seed << 5;
        values[i] = (int)(seed % 1000);
    }
    for (i = 1; i < LENGTH; i++) {
        moved = values[i];
        for (j = i; j > 0 && values[j - 1] > moved; j--)
            values[j] = values[j - 1];
        values[j] = moved;
    }
    for (i = 0; i < LENGTH; i++)
        printf("%d%c", values[i], i == LENGTH - 1 ? '\n' : ' ');
    return 0;
}
