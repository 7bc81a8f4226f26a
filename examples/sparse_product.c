/* A sparse matrix, by rows, times a vector: the columns are indices that lead to addresses. */
#include <stdio.h>

#define ROWS 8

int row_begin[ROWS + 1] = { 0, 2, 5, 6, 9, 9, 12, 14, 16 };
int column[16] = { 0, 3, 1, 2, 7, 5, 0, 4, 6, 2, 3, 7, 1, 5, 4, 6 };
int value[16] = { 4, -1, 7, 2, 5, 9, -3, 8, 1, 6, -2, 3, 10, -4, 12, 1 };
int x[ROWS] = { 1, 2, 3, 4, 5, 6, 7, 8 };
int y[ROWS];

int main(void)
{
    int row;
    int k;
    int sum;

    for (row = 0; row < ROWS; row++) {
        sum = 0;
        for (k = row_begin[row]; k < row_begin[row + 1]; k++)
            sum += value[k] * x[column[k]];
        y[row] = sum;
    }
    for (row = 0; row < ROWS; row++)
        printf("%d ", y[row]);
    printf("\n");
    return 0;
}
