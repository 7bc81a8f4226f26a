/* Calls within calls: the numbers of Fibonacci, and the moves of a tower of discs. */
#include <stdio.h>

int moves[3][3];

int fibonacci(int n)
{
    return n < 2 ? n : fibonacci(n - 1) + fibonacci(n - 2);
}

void move(int discs, int from, int to)
{
    if (discs == 0)
        return;
    move(discs - 1, from, 3 - from - to);
    moves[from][to]++;
    move(discs - 1, 3 - from - to, to);
}

int main(void)
{
    move(6, 0, 2);
    printf("%d %d %d\n", fibonacci(12), moves[0][2], moves[1][0]);
    return 0;
}
