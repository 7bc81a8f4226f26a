#include <stdio.h>
int main(void){int n=10;int d=0;if(n>5)n=n/d;printf("%d\n",n);return 0;}
