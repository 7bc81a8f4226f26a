int z;int t[2];int main(void){int*p=(int*)2;t[0]=1;*p=1/z;return 0;}
