/* A hash table with open addressing: words are put in, found, and missed. */
#include <stdio.h>

#define SLOTS 128

unsigned key[SLOTS];
int count[SLOTS];

int slot_of(unsigned word)
{
    unsigned at;

    at = (word * 2654435761u) >> 25;
    while (key[at] != 0 && key[at] != word)
        at = (at + 1) % SLOTS;
    return (int)at;
}

int main(void)
{
    unsigned seed;
    int i;
    int at;
    int found;

    seed = 12345;
    for (i = 0; i < 160; i++) {
        seed = seed * 1103515245u + 12345u;
        at = slot_of((seed >> 16) % 90 + 1);
        key[at] = (seed >> 16) % 90 + 1;
        count[at]++;
    }
    found = 0;
    for (i = 1; i <= 120; i++) {
        at = slot_of((unsigned)i);
        if (key[at] != 0)
            found += count[at] * i;
    }
    printf("%d %u\n", found, key[17]);
    return 0;
}
