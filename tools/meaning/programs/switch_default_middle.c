#include <stdio.h>
int f(unsigned x){int r=0;switch(x){case 4294967295u:r+=1;break;default:r+=2;case 7:r+=4;break;case 8:r+=8;}return r;}int main(void){printf("%d%d%d%d",f(-1),f(7),f(8),f(3));return 0;}
