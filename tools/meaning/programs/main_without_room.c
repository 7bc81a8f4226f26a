int main(void){int a[40];a[0]=1;return a[0];}
