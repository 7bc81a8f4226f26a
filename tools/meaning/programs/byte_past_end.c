int main(void){return *(char*)-1;}
