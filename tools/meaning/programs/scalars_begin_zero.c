int f(int k){int r=0;while(k--){int i;{int j;r+=i+j;j=5;}i=7;}return r;}int main(void){int x;return f(3)*10+x;}
