/* A stencil of five points on a plane that is kept row by row. */
#include <stdio.h>

#define ROWS 18
#define COLUMNS 20

int now[ROWS][COLUMNS];
int next[ROWS][COLUMNS];

int main(void)
{
    int row;
    int column;
    int round;
    int sum;

    for (row = 0; row < ROWS; row++)
        for (column = 0; column < COLUMNS; column++)
            now[row][column] = (row * 31 + column * 17) % 97;
    for (round = 0; round < 2; round++) {
        for (row = 1; row < ROWS - 1; row++)
            for (column = 1; column < COLUMNS - 1; column++)
                next[row][column] = now[row - 1][column] + now[row + 1][column] + now[row][column - 1]
                    + now[row][column + 1] - 3 * now[row][column];
        for (row = 1; row < ROWS - 1; row++)
            for (column = 1; column < COLUMNS - 1; column++)
                now[row][column] = next[row][column] % 1000;
    }
    sum = 0;
    for (row = 0; row < ROWS; row++)
        for (column = 0; column < COLUMNS; column++)
            sum += now[row][column];
    printf("%d %d\n", now[7][9], sum);
    return 0;
}
