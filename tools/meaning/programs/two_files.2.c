#include <stdio.h>
extern int n;int main(void){printf("%d\n",n);return 0;}
