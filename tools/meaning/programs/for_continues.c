#include <stdio.h>
int main(void){int i;int s=0;for(i=0;i<6;i+=1){if(i%2)continue;while(1){if(s>20)break;s+=i+1;break;}s*=2;}for(;;){if(s<50)break;s-=9;}return s;}
