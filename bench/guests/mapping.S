# 100,000 turns of a loop that maps a page, stores and loads in it, and unmaps it; then exit(0).
#ifndef TURNS
#define TURNS 100000
#endif
    .globl _start
_start:
    li   s0, TURNS
    li   s1, 0x40000000
1:  mv   a0, s1
    li   a1, 4096
    li   a2, 3
    li   a3, 0x32
    li   a4, -1
    li   a5, 0
    li   a7, 222
    ecall
    bne  a0, s1, 2f
    sw   s0, 8(a0)
    lw   t0, 8(a0)
    bne  t0, s0, 2f
    li   a1, 4096
    li   a7, 215
    ecall
    bnez a0, 2f
    addi s0, s0, -1
    bnez s0, 1b
    li   a0, 0
    li   a7, 93
    ecall
2:  ebreak
