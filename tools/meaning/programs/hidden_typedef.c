#include <stdio.h>
typedef int t;int main(void){int t=3;printf("%d\n",t);return 0;}
