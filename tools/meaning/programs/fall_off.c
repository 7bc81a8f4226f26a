int f(int x){if(x)return 5;}void h(void){return;}int main(void){h();if(f(0)==0&&f(1)==5)return f(1);}
