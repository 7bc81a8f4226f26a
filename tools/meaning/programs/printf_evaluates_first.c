#include <stdio.h>
int f(int x){putchar(48+x);return x;}int main(void){printf("a%db%dc",f(1),f(2));return 0;}
