#include <stdio.h>
#include <stdlib.h>
int f(int a,int b,int c){return a*100+b*10+c;}int p(int x){putchar(48+x);return x;}int main(void){int r=f(p(1),p(2),p(3));r+=f(p(4),(exit(r),p(5)),p(6));return 1;}
