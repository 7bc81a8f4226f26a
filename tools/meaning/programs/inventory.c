/* inventory.c: a small example */
#include <stdio.h>
#include <stdlib.h>

#define ROWS 2
#define COLS 3
#define LAST (COLS - 1)

struct node {
    int value;
    struct node *next;
};

static int left[ROWS][COLS] = { { 1, 2, 3 }, { 4, 5, 6 } };
static int right[COLS][ROWS] = { { 7, 8 }, { 9, 10 }, { 11, 12 } };
static int product[ROWS][ROWS];
static struct node cells[5];

static void multiply(void)
{
    int i, j, k;
    for (i = 0; i < ROWS; i++)
        for (j = 0; j < ROWS; j++) {
            product[i][j] = 0;
            for (k = 0; k < COLS; k++)
                product[i][j] += left[i][k] * right[k][j];
        }
}

static struct node *chain(int n)
{
    int i;
    for (i = 0; i < n; i++) {
        cells[i].value = i * i;
        cells[i].next = i + 1 < n ? &cells[i + 1] : NULL;
    }
    return cells;
}

static int total(const struct node *p)
{
    int sum = 0;
    while (p != NULL) {
        sum += p->value;
        p = p->next;
    }
    return sum;
}

static int common(int a, int b)
{
    return b == 0 ? a : common(b, a % b);
}

int main(void)
{
    multiply();
    printf("%d %d\n", product[0][0], product[0][1]);
    printf("%d %d\n", product[1][0], product[1][1]);
    printf("total %d\n", total(chain(5)));
    printf("common %d last %d\n", common(84, 36), left[1][LAST]);
    if (product[0][0] < 0)
        exit(EXIT_FAILURE);
    return 0;
}
