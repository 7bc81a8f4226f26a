#include <stdio.h>
int main(void){char c;c=255;printf("%d %u\n",c+1,0u-1);return 0;}
