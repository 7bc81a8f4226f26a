#include <stdio.h>
int main(void){int i=0;while(i<3){putchar('0'+i);i++;}do{putchar('b');}while(i++<9);return 0;}
