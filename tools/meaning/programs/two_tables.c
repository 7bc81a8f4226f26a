#include <stdio.h>
int a[3]={2,0,1};int b[3]={5,6,7};int main(void){int i;for(i=0;i<3;i++)printf("%d\n",b[a[i]]);return 0;}
