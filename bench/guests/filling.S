# Stores into each word of 64 pages, another number each time round, and never ends.
    .globl _start
_start:
    li   a0, 0
    li   a1, 262144
    li   a2, 3
    li   a3, 0x22
    li   a4, -1
    li   a5, 0
    li   a7, 222
    ecall
    mv   s0, a0
    li   s1, 1
1:  mv   t0, s0
    li   t1, 65536
2:  sw   s1, 0(t0)
    addi t0, t0, 4
    addi t1, t1, -1
    bnez t1, 2b
    addi s1, s1, 1
    j    1b
