#include <stdio.h>
int main(void){int i=0;do{if(i==2)continue;putchar(48+i);switch(i){case 3:continue;case 1:break;}putchar(45);}while(++i<5);return i;}
