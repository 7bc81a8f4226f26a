#include <stdio.h>
int main(void){printf("a%sb",(char*)0);return 0;}
