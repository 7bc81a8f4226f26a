#include <stdio.h>
struct n{int v;struct n*next;};struct n c={3,0};struct n b={2,&c};struct n a={1,&b};int main(void){struct n*p=&a;int s=0;while(p){s=s*10+p->v;p=p->next;}a.next->next->v=9;return s*10+b.next->v;}
