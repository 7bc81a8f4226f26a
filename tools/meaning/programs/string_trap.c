#include <stdio.h>
int main(void){char*p;for(p=(char*)120;p<(char*)128;p++)*p='y';printf("%s","ok");printf("%s",(char*)124);return 0;}
