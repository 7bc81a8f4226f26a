#include <stdio.h>
int p(int x){putchar(48+x);return x;}int f(int n,int x){return f(p(n),x+n);}int main(void){return f(3,4);}
