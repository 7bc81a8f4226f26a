#include <stdio.h>
int f(int p){int a=p,b=p+1,c=p+2,d=p+3,e=p+4,f=p+5,g=p+6,h=p+7,i=p+8,j=p+9,k=p+10,l=p+11,m=p+12,n=p+13,o=p+14,q=p+15;return a+b+c+d+e+f+g+h+i+j+k+l+m+n+o+q;}
int main(void){printf("%d\n",f(1));return 0;}
