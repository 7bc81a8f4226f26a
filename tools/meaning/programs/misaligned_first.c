int main(void){short*p=(short*)1;return *p;}
