int main(void){int i=3;int j;j=i+(i=10);j=j*100+i++ + i;i+=(i=7);return j*100+i;}
