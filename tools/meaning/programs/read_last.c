int main(void){return *(char*)127+*(short*)126;}
