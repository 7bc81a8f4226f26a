#include <stdio.h>
int a;int b;int c;int d;int e;int main(void){a=1;b=2;c=3;d=4;e=5;printf("%d\n",a+b*c-d+e);return 0;}
