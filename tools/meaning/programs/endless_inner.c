#include <stdio.h>
int main(void){int i;for(i=0;i<9;i++){putchar('a'+i);if(i==2)for(;;)putchar('.');}return 0;}
