#include <stdio.h>
int g;int main(void){g=2147483647;g=g+1;printf("%d\n",g);return 0;}
