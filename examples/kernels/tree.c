/* A binary tree of indices: words are put in, and looked for. */
#include <stdio.h>

#define NODES 64

int value[NODES];
int left[NODES];
int right[NODES];

int main(void)
{
    int i;
    int at;
    int word;
    int steps;
    int done;

    for (i = 0; i < NODES; i++) {
        value[i] = i * 37 % 127;
        left[i] = -1;
        right[i] = -1;
    }
    for (i = 1; i < NODES; i++) {
        at = 0;
        done = 0;
        while (!done) {
            if (value[i] < value[at]) {
                if (left[at] < 0) {
                    left[at] = i;
                    done = 1;
                } else
                    at = left[at];
            } else if (right[at] < 0) {
                right[at] = i;
                done = 1;
            } else
                at = right[at];
        }
    }
    steps = 0;
    for (word = 0; word < 127; word++) {
        at = 0;
        while (at >= 0 && value[at] != word) {
            steps++;
            at = word < value[at] ? left[at] : right[at];
        }
    }
    printf("%d\n", steps);
    return 0;
}
