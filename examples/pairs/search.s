; E looks for the word 7 among those that A sends, and tells A in each turn whether to go on. A goes round 64 words:
; a shift left and one right would keep the address in them too, but the guard follows a mask alone
.budget 1 0 0 0 0 1 0
.memory 1024
.calls 1
.private 0 0
.entry start start
.a
start:
loop:
andi x6,x5,63
slli x6,x6,2
lw x30,16(x6)
addi x5,x5,1
bne x29,x0,loop       ; what E told
ecall
.e
start:
loop:
addi x10,x30,-7
sltu x12,x0,x10
addi x29,x12,0        ; go on?
bne x12,x0,loop
addi x10,x0,0
addi x17,x0,0
ecall
.data
.byte 1 0 0 0 2 0 0 0 3 0 0 0 7 0 0 0
