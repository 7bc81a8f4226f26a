#include <stdio.h>
char c=255;int g=5;int main(void){signed char s=127;int i=3;int*p=&g;printf("%d %d %d %d ",c++,c,++c,c--);printf("%d %d %d ",s++,s,--i);printf("%d %d %d",(*p)--,++*p,i++ +i);return 0;}
