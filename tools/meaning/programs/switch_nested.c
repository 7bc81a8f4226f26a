#include <stdio.h>
int main(void){int i,j;for(i=0;i<4;i++){switch(i){for(;;)putchar('!');case 3:case 1:for(j=0;j<3;j++){switch(j){case 1:continue;default:putchar('0'+j);}if(j==2)break;}if(i==1)continue;putchar('m');break;case 0:switch(i+5){case 5:putchar('n');continue;}putchar('?');default:putchar('d');}putchar(';');}return 0;}
