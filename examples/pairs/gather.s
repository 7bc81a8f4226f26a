; sum of b[a[i]] over 64 indices; an index is masked, so that its address is good whatever the memory holds
.budget 1 1 0 0 1 0 0
.memory 2048
.calls 1
.private 0 0
.entry start start
.a
start:
addi x5,x0,16
addi x6,x0,272
loop:
lw x31,0(x5)          ; an index
andi x7,x31,255
slli x7,x7,2
lw x30,272(x7)        ; the value, for E
addi x5,x5,4
sltu x8,x5,x6
addi x29,x8,0         ; one more?
bne x8,x0,loop
ecall
.e
start:
add x10,x10,x30
bne x29,x0,start
addi x17,x0,2
ecall
addi x10,x0,0
addi x17,x0,0
ecall
.data
.byte 0 0 0 0
