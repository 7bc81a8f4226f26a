#include <stdio.h>
int a[4]={1,2,3,4};int b[4]={10,20,30,40};int c[4];int main(void){int i;for(i=0;i<4;i++)c[i]=a[i]+b[i];for(i=0;i<4;i++)printf("%d\n",c[i]);return 0;}
