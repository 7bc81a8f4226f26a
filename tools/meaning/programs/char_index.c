char s[6]="hello";int main(void){unsigned char i=255;int n=0;i++;while(s[i])n=n*3+s[i++]%7;return n+i[s]+*(s+1);}
