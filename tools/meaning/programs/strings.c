#include <stdio.h>
char s[4]="ab";int main(void){printf("[%s|%s%%|%c]",s,"xyz",65);s[2]='c';s[3]='d';printf("%s",s);return 0;}
