#include <stdio.h>
char s[8]="abc";int main(void){char*p=s+1;printf("%s",p);printf("<%s%s>","",s);return 0;}
