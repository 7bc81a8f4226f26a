; A sends three loads and then a word; E wants the word first: three places of ld are needed
.budget 0 0 0 0 0 0 0
.memory 64
.calls 1
.private 0 0
.entry 0 0
.a
lw x30,16(x0)
lw x30,20(x0)
lw x30,24(x0)
addi x29,x0,1         ; the word
ecall
.e
addi x5,x29,0         ; takes the word
addi x10,x30,0
add x10,x10,x30
add x10,x10,x30
addi x17,x0,0
ecall
.data
.byte 0 0 0 0 1 0 0 0 2 0 0 0
