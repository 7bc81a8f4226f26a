#include <stdio.h>
int main(void){int*p=(int*)8;*p+=putchar(97);return 0;}
