#include <stdio.h>
int f(int n){return n?1+f(n-1):0;}int main(void){printf("%d\n",f(19));return 0;}
