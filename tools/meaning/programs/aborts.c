#include <stdlib.h>
#include <stdio.h>
int main(void){int i=putchar(300);if(i==44)abort();return 1;}
