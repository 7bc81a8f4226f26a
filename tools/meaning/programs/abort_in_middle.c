#include <stdio.h>
#include <stdlib.h>
int g;int main(void){g=1;return g+(putchar(97),abort(),g=2);}
