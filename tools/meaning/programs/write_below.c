int main(void){*(int*)12=1;return 0;}
