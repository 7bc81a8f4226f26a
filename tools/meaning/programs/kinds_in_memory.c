#include <stdio.h>
signed char a[2]={-1,127};unsigned char b[2]={255,1};short c[2]={-2,3};unsigned short d[2]={65534,4};int main(void){printf("%d %d %d %d ",a[0],b[0],c[0],d[0]);a[1]++;b[0]++;c[0]-=32767;d[1]=65536+9;printf("%d %d %d %d",a[1],b[0],c[0],d[1]);return 0;}
