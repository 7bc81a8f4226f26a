#include <stdio.h>
int main(void){int x=-32641;unsigned char a=x;signed char b=x;unsigned short c=x;short d=x;printf("%d %d %d %d ",a,b,c,d);printf("%d %d %d",(signed char)200+(unsigned char)-1,(short)40000,(unsigned short)-2);return 0;}
