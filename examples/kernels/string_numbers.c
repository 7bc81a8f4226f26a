/* Numbers are read from a text, added up, and written back as digits. */
#include <stdio.h>

char text[] = "17 4095 8 65536 12 999 3 70000 250 81 6 12345 77 1024 5 31";
char digits[12];

int main(void)
{
    int i;
    int k;
    unsigned number;
    unsigned sum;

    sum = 0;
    i = 0;
    while (text[i] != 0) {
        number = 0;
        while (text[i] >= '0' && text[i] <= '9') {
            number = number * 10 + (unsigned)(text[i] - '0');
            i++;
        }
        sum += number;
        while (text[i] == ' ')
            i++;
    }
    k = 0;
    number = sum;
    while (number != 0) {
        digits[k++] = (char)('0' + number % 10);
        number /= 10;
    }
    while (k > 0)
        putchar(digits[--k]);
    printf(" %u\n", sum % 97);
    return 0;
}
