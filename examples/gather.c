/* Indirect loads: the access processor loads an index for itself, and with it the value for the execute processor. */
#include <stdio.h>

#define LENGTH 32

int table[100];
int where[LENGTH];

int main(void)
{
    int i;
    int total;

    for (i = 0; i < 100; i++)
        table[i] = i * i;
    for (i = 0; i < LENGTH; i++)
        where[i] = (i * 37 + 11) % 100;
    total = 0;
    for (i = 0; i < LENGTH; i++)
        total += table[where[i]];
    printf("%d\n", total);
    return 0;
}
