int main(void){int i;int s=0;for(i=0;i<3;i++){int k=k+1;s+=k;}return s;}
