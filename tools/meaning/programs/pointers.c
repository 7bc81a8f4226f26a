#include <stdio.h>
struct p{int x;short y;char z;};struct p t[4];int main(void){struct p*a=&t[3];struct p*b=t;b->y=7;(b+1)->x=5;a--;a->z='c';printf("%d %d %d %c\n",a-b,t[0].y+b[1].x,a>b,t[2].z);return (int)a-(int)b;}
