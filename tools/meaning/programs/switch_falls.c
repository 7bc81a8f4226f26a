#include <stdio.h>
typedef int num;int main(void){num i;int s=0;for(i=0;i<5;i++)switch(i){case 1:s+=10;case 2:s+=100;break;case 4:s+=1;break;default:s+=1000;}printf("%d\n",s);return 0;}
