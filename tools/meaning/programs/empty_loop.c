#include <stdio.h>
int x[5];int main(void){int i;for(i=0;i<4;i++);x[i]=7;printf("%d\n",x[4]);return 0;}
