int f(int n){int i;for(i=0;;i++){while(i>3){do{if(i==n)return i*10;}while(0);break;}switch(i){case 9:return 1;}}}int g(int n){while(n)return;return;}int main(void){return f(6)+f(3)+g(1);}
