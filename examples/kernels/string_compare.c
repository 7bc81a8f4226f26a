/* Strings are copied, compared and measured, byte by byte. */
#include <stdio.h>

char text[] = "the quick brown fox jumps over the lazy dog and the quick brown cat";
char word[16];
char other[] = "the quick brown fox jumps over the lazy dog and the quick brown cap";

int length(const char *s)
{
    int n;

    for (n = 0; s[n] != 0; n++)
        ;
    return n;
}

int compare(const char *s, const char *t)
{
    while (*s != 0 && *s == *t) {
        s++;
        t++;
    }
    return *s - *t;
}

int main(void)
{
    int i;
    int k;
    int words;
    int same;

    words = 0;
    same = 0;
    i = 0;
    while (text[i] != 0) {
        for (k = 0; text[i] != 0 && text[i] != ' '; i++)
            word[k++] = text[i];
        word[k] = 0;
        words++;
        if (compare(word, "the") == 0)
            same++;
        if (text[i] == ' ')
            i++;
    }
    printf("%d %d %d %d\n", words, same, length(text), compare(text, other));
    return 0;
}
