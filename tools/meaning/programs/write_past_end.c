int main(void){*(int*)128=1;return 0;}
