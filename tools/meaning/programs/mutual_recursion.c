#include <stdio.h>
int odd(int n);int even(int n){return n?odd(n-1):1;}int odd(int n){return n?even(n-1):0;}int fib(int n){return n<2?n:fib(n-1)+fib(n-2);}int main(void){return fib(9)*100+even(7)*10+odd(7);}
