# 40,000 turns of a loop that stores an instruction into a page that may be run and written, FENCE.I, and runs it; then exit(0).
#ifndef TURNS
#define TURNS 40000
#endif
    .globl _start
    .option arch, +zifencei
    .section .changing, "awx", @progbits
_start:
    li   t0, TURNS
    la   t1, place
    lw   t2, addition
    li   t3, 0x00100000
1:  xor  t2, t2, t3
    sw   t2, 0(t1)
    fence.i
place:
    addi a1, a1, 0
    addi t0, t0, -1
    bnez t0, 1b
    li   a0, 0
    li   a7, 93
    ecall
addition:
    addi a1, a1, 2
