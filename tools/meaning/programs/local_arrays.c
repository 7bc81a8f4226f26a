#include <stdio.h>
int f(int k){int a[3];int r=a[0]+a[1];a[0]=k;a[1]=k*2;return r;}int g(void){char w[7]={1,2};short h[2]={-1};return w[0]+w[6]+h[1]+h[0];}int main(void){int r=f(1);r=r*100+f(5);r=r*100+g();return r*100+f(0);}
