#include <stdio.h>
int k=2;int x[4];int main(void){int j=k;x[j]=j;printf("%d\n",x[2]);return 0;}
