int main(void){return *(int*)-1;}
