#include <stdio.h>
struct p{char c;short s[2];struct{int a;char*t;}q;};struct p g={1,{2},{3,"xy"}};int main(void){struct p l={9,{8,7},{6,"z"}};struct p m[2]={{1},{2,{3,4}}};printf("%d%d%d%d%s ",g.c,g.s[0],g.s[1],g.q.a,g.q.t);printf("%d%d%d%d%s ",l.c,l.s[0],l.s[1],l.q.a,l.q.t);printf("%d%d%d%d",m[0].c,m[0].q.a,m[1].s[1],m[1].c);return 0;}
