#include <stdio.h>
int main(void){int i,j,s=0;for(i=0;;i++){if(i==5)break;for(j=0;j<5;j++){if(j==i)continue;if(j>3)break;s+=i*j;}do{s++;if(s%3==0)continue;s++;}while(s%5);}while(s>100)s-=7;printf("%d\n",s);return 0;}
