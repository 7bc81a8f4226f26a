int main(void){int n=0;switch(n++){}switch(3){case 1:n=9;}switch(n){default:;}return n;}
