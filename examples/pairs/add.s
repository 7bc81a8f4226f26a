; c[i] = a[i] + 1 over 64 words: A sends the addresses of loads and of stores, E the data
.budget 1 0 1 1 1 0 0
.memory 1024
.calls 1
.private 0 0
.entry start start
.a
start:
addi x5,x0,16
addi x6,x0,272
loop:
lw x30,0(x5)
sw x30,256(x5)
addi x5,x5,4
sltu x7,x5,x6
addi x29,x7,0         ; one more?
bne x7,x0,loop
ecall
.e
start:
addi x10,x30,0
addi x30,x10,1        ; the datum
bne x29,x0,start
addi x10,x0,0
addi x17,x0,0
ecall
.data
.byte 0 0 0 0
