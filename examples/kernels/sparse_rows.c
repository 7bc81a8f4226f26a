/* A sparse matrix by rows times a vector, where columns come of a table. */
#include <stdio.h>

#define ROWS 40
#define IN_ROW 5

int column[ROWS * IN_ROW];
int value[ROWS * IN_ROW];
int begin[ROWS + 1];
int x[ROWS];
int y[ROWS];

int main(void)
{
    int row;
    int k;
    int round;
    int sum;

    k = 0;
    for (row = 0; row < ROWS; row++) {
        begin[row] = k;
        for (round = 0; round <= row % IN_ROW; round++) {
            column[k] = (row * 7 + round * 13) % ROWS;
            value[k] = row - 3 * round;
            k++;
        }
        x[row] = row + 1;
    }
    begin[ROWS] = k;
    for (round = 0; round < 3; round++) {
        for (row = 0; row < ROWS; row++) {
            sum = 0;
            for (k = begin[row]; k < begin[row + 1]; k++)
                sum += value[k] * x[column[k]];
            y[row] = sum;
        }
        for (row = 0; row < ROWS; row++)
            x[row] = y[row] % 100;
    }
    sum = 0;
    for (row = 0; row < ROWS; row++)
        sum += x[row] * row;
    printf("%d %d\n", y[ROWS - 1], sum);
    return 0;
}
