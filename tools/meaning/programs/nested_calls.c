#include <stdio.h>
int add(int a,int b){return a+b;}int twice(int*p){*p=*p*2;return *p;}
int main(void){int v=3;printf("%d %d\n",add(twice(&v),add(v,twice(&v))),v);return 0;}
