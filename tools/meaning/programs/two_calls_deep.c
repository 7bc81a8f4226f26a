#include <stdio.h>
int f(void){return 1;}int main(void){putchar(65);return f()+f();}
