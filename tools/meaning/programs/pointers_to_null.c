#include <stdio.h>
int u=10;int v=20;int*q[3]={&u,&v,0};int main(void){int i;for(i=0;i<3;i++)printf("%d\n",*q[i]);return 0;}
