/* All places of a word in a text: what is compared are loaded values, so that the execute processor decides. */
#include <stdio.h>

char text[] = "she sells sea shells on the sea shore where she sits";
char word[] = "she";

static int stands_at(const char *t, const char *w)
{
    while (*w != 0) {
        if (*t != *w)
            return 0;
        t++;
        w++;
    }
    return 1;
}

int main(void)
{
    int i;

    for (i = 0; text[i] != 0; i++)
        if (stands_at(&text[i], word))
            printf("%d\n", i);
    return 0;
}
