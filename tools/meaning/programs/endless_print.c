#include <stdio.h>
int main(void){while(1)putchar('x');return 0;}
