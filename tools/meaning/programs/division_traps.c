#include <stdio.h>
int g;int z;int main(void){printf("%d\n",5);g=7;g=g/z;return 0;}
