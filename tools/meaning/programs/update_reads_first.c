#include <stdio.h>
int g=1;int h(void){g=50;return 2;}int main(void){int x=1;int*p=&g;x+=(x=10);*p+=h();printf("%d %d ",x,g);g-=(g=7)+g;printf("%d",g);return 0;}
