#include <stdio.h>
int z;int main(void){printf("a%d",1/z);return 0;}
