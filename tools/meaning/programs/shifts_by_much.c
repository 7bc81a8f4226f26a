#include <stdio.h>
int main(void){int k=37;int m=-64;unsigned u=0x80000001u;printf("%d %d %u %u",m>>k,1<<k,u>>k,u<<(k+27));return 0;}
