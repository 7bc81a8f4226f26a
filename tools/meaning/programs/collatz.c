#include <stdio.h>
int main(void){int n=27;int s=0;while(n!=1){if(n%2)n=3*n+1;else n=n/2;s++;}printf("%d\n",s);return 0;}
