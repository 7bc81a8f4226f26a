int f(char a,int b,short c){int*q=&b;char*p=&a;short*r=&c;*p+=1;*q+=2;*r+=3;return a+b+c+(int)((char*)q-p)+(int)((char*)r-p);}int main(void){return f(255,10,-1);}
