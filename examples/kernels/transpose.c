/* A square matrix is transposed where it stands: two addresses that lie a row apart. */
#include <stdio.h>

#define SIZE 16

int matrix[SIZE][SIZE];

int main(void)
{
    int row;
    int column;
    int kept;
    int sum;

    for (row = 0; row < SIZE; row++)
        for (column = 0; column < SIZE; column++)
            matrix[row][column] = row * SIZE + column;
    for (row = 0; row < SIZE; row++)
        for (column = 0; column < row; column++) {
            kept = matrix[row][column];
            matrix[row][column] = matrix[column][row];
            matrix[column][row] = kept;
        }
    sum = 0;
    for (row = 0; row < SIZE; row++)
        for (column = 0; column < SIZE; column++)
            sum += matrix[row][column] * (row - column);
    printf("%d %d\n", matrix[3][12], sum);
    return 0;
}
