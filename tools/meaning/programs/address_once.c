#include <stdio.h>
int a[3]={1,2,3};int n;int i(void){putchar(48+n);return n++;}int main(void){a[i()]+=10;a[i()]++;a[i()]=7;return a[0]*100+a[1]*10+a[2]+n;}
