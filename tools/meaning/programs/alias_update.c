int x=1;int y;int main(void){int*p=&x;*p+=(x=10);y=x;x-=(*p=5);return x;}
