#include <stdio.h>
int g;int h;int main(void){g=6;h=g*7;printf("%d\n",h);return 0;}
