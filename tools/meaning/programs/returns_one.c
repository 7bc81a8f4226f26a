int g;int main(void){g=1;return 1;}
