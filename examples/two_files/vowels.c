/* Two files: how many vowels a text has. */
int vowels(const char *text)
{
    int count;

    count = 0;
    while (*text) {
        switch (*text) {
        case 'a': case 'e': case 'i': case 'o': case 'u':
            count++;
        }
        text++;
    }
    return count;
}
