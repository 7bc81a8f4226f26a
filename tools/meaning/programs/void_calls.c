#include <stdio.h>
void f(int x){if(x)return;putchar(102);}int main(void){f(1);f(0);(void)(f(0),1);return (f(1),4);}
