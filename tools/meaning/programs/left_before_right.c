#include <stdio.h>
int a[2];int f(int x){putchar(48+x);return x;}int main(void){int r=f(1)-f(2)*f(3);r+=(f(4)<f(5))+(f(6)==f(6));a[f(0)]=f(7)+a[f(1)];return r+(f(8),f(9));}
