; A counts down from a number in memory, and tells E in each turn whether there is one more
.budget 1 1 0 0 1 0 0
.memory 64
.calls 1
.private 0 0
.entry start start
.a
start:
lw x31,16(x0)
addi x5,x31,0
loop:
lw x30,20(x0)
addi x5,x5,-1
sltu x6,x0,x5
addi x29,x6,0         ; one more?
bne x6,x0,loop
ecall
.e
start:
addi x10,x30,0
bne x29,x0,start
ecall                 ; x17 is 0: halts with the last value
.data
.byte 3 0 0 0 9 0 0 0
