#include <stdio.h>
int a[5]={1,2,3,4,5};int m[2][3]={{1,2,3},{4,5,6}};int main(void){int*p=a+4;int*q=&a[1];int n=p-q;n=n*10+(q-p)+4;n=n*10+2[a];n=n*10+*(p-1);n=n*10+m[1][2];n=n*10+(*(m+1))[0];return n*10+(p>q)+(q<=p)*2+(p==q+3)*4+!p*8;}
