int main(void){int a=5;int*p=&a;return (a&&2)+(0||p)*10+!a*100+(!0)*1000+(a&&0||a)*10000;}
