int c(int a,int b,unsigned u,unsigned v){return (a<b)+2*(a>b)+4*(a<=b)+8*(a>=b)+16*(a==b)+32*(a!=b)+64*(u<v)+128*(u>v)+256*(u<=v)+512*(u>=v);}
int main(void){return c(-1,1,-1,1)*10000+c(3,3,3,3)*100+c(2,-2,2,-2);}
