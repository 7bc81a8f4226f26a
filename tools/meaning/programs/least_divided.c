#include <stdio.h>
int main(void){int m=-2147483647-1;int d=-1;printf("%d %d\n",m/d,m%d);return 0;}
