void set(int*p,int x){*p=x;}char f(char c,short s){set((int*)0+5,1);s+=c;{char*q=&c;*q+=s;}return c;}
int a;int b[4];int main(void){return f(200,100)+b[0];}
