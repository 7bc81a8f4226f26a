int main(void){*(int*)124=1;return 0;}
