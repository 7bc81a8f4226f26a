#include <stdio.h>
#include <stdlib.h>
int main(void){int i=0;while(i++<3||(exit(i),1))putchar(98);return 0;}
