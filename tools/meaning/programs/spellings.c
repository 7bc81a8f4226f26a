#include <stdio.h>
int main(void){printf("%d|%i|%u|%x|%c|%%|%s",-5,7,-5,48879,321,"s");printf("%ld%lx",-1l,255u);return 0;}
