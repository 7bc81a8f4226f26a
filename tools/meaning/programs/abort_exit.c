#include <stdio.h>
#include <stdlib.h>
int f(int x){if(x>2)exit(x*7);return f(x+1);}int main(void){putchar('q');return f(0);}
