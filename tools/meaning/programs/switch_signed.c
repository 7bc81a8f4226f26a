#include <stdio.h>
int f(int x){switch(x){putchar(33);case -1:return 1;case 1:case 2:{int k=x*2;switch(k){case 2:break;default:return 4;}return 5;}}return 0;}int main(void){signed char c=-1;printf("%d%d%d%d",f(c),f(1),f(2),f(9));return 0;}
