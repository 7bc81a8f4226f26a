int g=1;int f(int x){g=g*10+x;return x;}int main(void){int a[3];a[f(0)]=f(1)+f(2)*f(3);return g==10123&&a[0]==7&&f(5)+(g=3)==8&&g==3;}
