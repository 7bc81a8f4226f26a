/* Words are sent to where a permutation says, and fetched back by its inverse. */
#include <stdio.h>

#define LENGTH 128

int to[LENGTH];
int from[LENGTH];
int data[LENGTH];
int moved[LENGTH];

int main(void)
{
    int i;
    int wrong;
    int sum;

    for (i = 0; i < LENGTH; i++) {
        to[i] = (i * 45 + 19) % LENGTH;
        data[i] = i * i;
    }
    for (i = 0; i < LENGTH; i++)
        from[to[i]] = i;
    for (i = 0; i < LENGTH; i++)
        moved[to[i]] = data[i];
    wrong = 0;
    sum = 0;
    for (i = 0; i < LENGTH; i++) {
        if (moved[i] != data[from[i]])
            wrong++;
        sum += moved[i] * (i & 7);
    }
    printf("%d %d\n", wrong, sum);
    return wrong;
}
