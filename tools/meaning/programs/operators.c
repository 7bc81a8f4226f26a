#include <stdio.h>
int main(void){int a=-2000000011;int b=7;unsigned u=2294967285u;printf("%d %d %d %d %d ",a+b,a-b,a*b,a/b,a%b);printf("%u %u %d %d %d ",u/b,u%b,a&b,a|b,a^b);printf("%d %d %u %d %d",a<<b,a>>b,u>>b,~a,-a);return 0;}
