#include <stdio.h>
struct s{int a;short b;};struct s t[3]={{1,2},{3,4},{5,6}};int main(void){struct s*p=t;int n=p++->a;n=n*10+p->b;n=n*10+(++p)->a;p--;return n*10+p--->a;}
