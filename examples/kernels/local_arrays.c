/* Arrays of a function's own, which are set to zero at each call. */
#include <stdio.h>

int digits_of(unsigned number)
{
    unsigned char seen[10] = { 0 };
    int different;
    int i;

    do {
        seen[number % 10] = 1;
        number /= 10;
    } while (number != 0);
    different = 0;
    for (i = 0; i < 10; i++)
        different += seen[i];
    return different;
}

int most_of(int begin)
{
    int count[16] = { 0 };
    int i;
    int most;

    for (i = 0; i < 40; i++)
        count[(begin + i * i) & 15]++;
    most = 0;
    for (i = 0; i < 16; i++)
        if (count[i] > most)
            most = count[i];
    return most;
}

int main(void)
{
    int i;
    int sum;

    sum = 0;
    for (i = 0; i < 30; i++)
        sum += digits_of((unsigned)i * 9973u) * most_of(i);
    printf("%d\n", sum);
    return 0;
}
