int main(void){return *(char*)16;}
