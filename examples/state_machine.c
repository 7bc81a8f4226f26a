/* A machine of three states that counts words and numbers: the next state is decided by loaded characters. */
#include <stdio.h>

enum state { BETWEEN, IN_WORD, IN_NUMBER };

char text[] = "in 1982 two streams, 7 queues and 64 words met 3 times";

static int kind_of(int c)
{
    if (c >= '0' && c <= '9')
        return 2;
    if (c >= 'a' && c <= 'z')
        return 1;
    return 0;
}

int main(void)
{
    enum state state;
    int words;
    int numbers;
    int i;

    state = BETWEEN;
    words = 0;
    numbers = 0;
    for (i = 0; text[i] != 0; i++) {
        switch (kind_of(text[i])) {
        case 1:
            if (state == BETWEEN) {
                words++;
                state = IN_WORD;
            }
            break;
        case 2:
            if (state == BETWEEN) {
                numbers++;
                state = IN_NUMBER;
            }
            break;
        default:
            state = BETWEEN;
        }
    }
    printf("%d words, %d numbers\n", words, numbers);
    return 0;
}
