#include <stdio.h>
int z;int main(void){int*p=0;*p=putchar(97);return 0;}
