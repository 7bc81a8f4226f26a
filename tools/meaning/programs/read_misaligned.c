int main(void){return *(short*)17;}
