int n;int t(int x){n++;return x;}int main(void){int a=t(0)&&t(1);int b=t(2)||t(3);int c=!t(5)?t(1):t(0)?4:6;return a*1000+b*100+c*10+n+((t(1),t(7))==7)+!(n>3||t(0));}
