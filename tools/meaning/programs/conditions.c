#include <stdio.h>
int n;int t(int x){n=n*10+x;return x;}int main(void){int r=0;if(t(0)||t(2)&&!t(0))r=1;if(!(t(1)&&t(0)))r+=2;if(t(3)?t(0):t(4))r+=4;if((t(0),t(5)))r+=8;printf("%d %d",r,n);return 0;}
