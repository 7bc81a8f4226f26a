#include <stdio.h>
char*p="ab";char*q="ab";char r[3]="ab";int main(void){printf("%d%s%s%s",p==q,p,q,r);p[0]=99;r[1]=100;printf("%s%s%s",p,q,r);return sizeof(r);}
