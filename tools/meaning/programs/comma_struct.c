struct s{int a;int b;};struct s x={1,2};struct s y={3,4};int main(void){int n=0;struct s*p=&y;return (n?x:y).b*10+(n++,x).a+(n?*p:x).a*100;}
