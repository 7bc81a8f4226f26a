struct s{char c;int n[2];};int g;int f(int k){struct s t={1,{2}};int a[3]={5,6};char w[4]="hi";int*p[2]={&g,0};int r=t.c+t.n[0]*10+t.n[1]*100+a[1]*1000+w[1]+(p[0]==&g);if(k){t.n[1]=9;a[2]=7;}return r;}
int main(void){int a[2]={3};return f(1)+f(0)+a[0]+a[1];}
