#include <stdio.h>
int g;int h;int main(void){g=3;h=g*g;printf("%d\n",h);return 0;}
