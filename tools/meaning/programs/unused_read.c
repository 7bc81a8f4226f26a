#include <stdio.h>
int*p;int main(void){putchar(97);*p;putchar(98);return 0;}
