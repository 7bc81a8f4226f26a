int n=5;
