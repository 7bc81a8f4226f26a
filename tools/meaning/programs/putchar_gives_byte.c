#include <stdio.h>
int main(void){int x=putchar(353);return x*1000+putchar(-159);}
