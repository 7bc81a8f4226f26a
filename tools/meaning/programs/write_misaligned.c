int main(void){*(int*)18=1;return 0;}
