unsigned char c=250;signed char d=127;short s=32767;int main(void){c+=10;d++;s++;return (c<<16)+(d&255)*256+(s==-32768)+(c--==4)*2+(~d>>4);}
