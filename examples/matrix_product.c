/* The product of two matrices: addresses by arithmetic alone, and two loads for each multiplication. */
#include <stdio.h>

#define N 8

int a[N][N];
int b[N][N];
int c[N][N];

int main(void)
{
    int i;
    int j;
    int k;
    int sum;

    for (i = 0; i < N; i++)
        for (j = 0; j < N; j++) {
            a[i][j] = i + j;
            b[i][j] = i - j;
        }
    for (i = 0; i < N; i++)
        for (j = 0; j < N; j++) {
            sum = 0;
            for (k = 0; k < N; k++)
                sum += a[i][k] * b[k][j];
            c[i][j] = sum;
        }
    for (i = 0; i < N; i++)
        printf("%d ", c[i][i]);
    printf("\n");
    return 0;
}
