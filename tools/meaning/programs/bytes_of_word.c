#include <stdio.h>
unsigned a[1];int main(void){unsigned char*p=(unsigned char*)a;a[0]=0x11223344;p[1]=0;printf("%x\n",a[0]);return 0;}
