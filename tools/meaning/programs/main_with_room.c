int main(void){int a[28];a[27]=1;return a[27];}
