#include <stdio.h>
int x[10];int main(void){int i;x[0]=0;for(i=1;i<10;i++)x[i]=x[i-1]+1;printf("%d\n",x[9]);return 0;}
