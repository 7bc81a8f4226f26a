int z;int main(void){int x=5;x%=3;x/=z;return x;}
