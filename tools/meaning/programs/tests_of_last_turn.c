#include <stdio.h>
int main(void){while(putchar(116))putchar(98);return 0;}
