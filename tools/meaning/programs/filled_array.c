#include <stdio.h>
int s[4];int main(void){int i=0;while(i<4){s[i]=i;i++;}printf("%d\n",s[3]);return 0;}
