# 4,000,000 turns of a loop of ten instructions, with two loads and two stores, over sixteen pages; then exit(0).
#ifndef TURNS
#define TURNS 4000000
#endif
    .globl _start
_start:
    li   t0, TURNS
    la   t1, table
    li   t2, 0
    li   t3, 0xFFFC
1:  add  a0, t1, t2
    lw   a1, 0(a0)
    add  a1, a1, t0
    sw   a1, 0(a0)
    lbu  a2, 1(a0)
    addi t2, t2, 68
    and  t2, t2, t3
    addi t0, t0, -1
    sb   a2, 2(a0)
    bnez t0, 1b
    li   a0, 0
    li   a7, 93
    ecall

    .bss
    .balign 4096
table:
    .zero 65536 + 4096
