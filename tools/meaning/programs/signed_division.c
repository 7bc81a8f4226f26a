#include <stdio.h>
int main(void){printf("%d %d\n",-7/2,-7%2);return 0;}
