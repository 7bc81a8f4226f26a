int main(void){return *(short*)128;}
