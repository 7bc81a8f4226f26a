/* Two files: this one counts the vowels of a text, by the other. */
#include <stdio.h>
int vowels(const char *text);
char text[] = "decoupled access and execute";
int main(void)
{
    printf("%d\n", vowels(text));
    return 0;
}
