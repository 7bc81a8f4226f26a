#include <stdio.h>
int main(void){printf("%c",65);putchar(66);return 7;}
