unsigned z;int main(void){unsigned x=5;return x%z;}
