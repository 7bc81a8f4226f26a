/* Lesson 3: a string turned round in place: where it ends is a loaded value. */
#include <stdio.h>
char text[] = "a decoupled machine runs two streams of one program side by side, and the queues between them hold what one is ahead";
int main(void)
{
    int i;
    int j;
    char c;

    /* measured from here */
    for (j = 0; text[j] != 0; j++)
        ;
    for (i = 0, j--; i < j; i++, j--) {
        c = text[i];
        text[i] = text[j];
        text[j] = c;
    }
    printf("%s\n", text);
    return 0;
}
