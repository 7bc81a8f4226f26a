#include <stdio.h>
int main(void){int i;int s=0;for(i=0;i<4;i++){switch(i&1){case 0:continue;}s+=i;}printf("%d\n",s);return 0;}
