int main(void){int m=-17;unsigned u=4000000000u;int k=33;return (m>>2)+(int)(u>>30)+(m<<k)+(m/5)*(m%5)+(int)(u%7)+(u/1000000000>3)+(m<0)+(u<1);}
