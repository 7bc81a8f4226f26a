int*f(int n){int a[2];a[0]=n;a[1]=n+1;return a;}int h(int n){int b[2];int*p;b[0]=n;p=f(n*2);return p[0]+b[0]+(p-b);}int main(void){return h(5);}
