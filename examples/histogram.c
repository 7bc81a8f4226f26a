/* Counting: each store may change what the next load reads, and the machine keeps them in order. */
#include <stdio.h>

char text[] = "a decoupled machine runs two streams of one program side by side";
int counts[26];

int main(void)
{
    int i;

    for (i = 0; text[i] != 0; i++)
        if (text[i] >= 'a' && text[i] <= 'z')
            counts[text[i] - 'a']++;
    for (i = 0; i < 26; i++)
        if (counts[i] > 3)
            printf("%c %d\n", 'a' + i, counts[i]);
    return 0;
}
