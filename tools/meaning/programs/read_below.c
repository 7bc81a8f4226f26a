int main(void){return *(char*)15;}
