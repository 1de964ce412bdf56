# 4,000,000 turns of a loop of eight instructions, without a load or a store; then exit(0).
#ifndef TURNS
#define TURNS 4000000
#endif
    .globl _start
_start:
    li   t0, TURNS
    li   a0, 1
    li   a1, 0x1234567
1:  add  a0, a0, t0
    xor  a1, a1, a0
    slli a2, a1, 3
    sub  a0, a2, a0
    or   a3, a1, a2
    srli a4, a3, 5
    addi t0, t0, -1
    bnez t0, 1b
    li   a0, 0
    li   a7, 93
    ecall
