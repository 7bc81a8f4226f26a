int f(int n){int a[4];a[0]=n;return n?f(n-1)+a[0]:0;}int main(void){return f(3)+f(9);}
