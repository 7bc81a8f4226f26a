unsigned char g=250;int main(void){char c=200;short s=32767;signed char d=100;int r=(c+=100);s+=2;d*=2;r=r*1000+(g+=10);return r+(s<0)+(d==-56)*2+c;}
