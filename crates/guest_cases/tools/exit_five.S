# exit(5)
    .globl _start
_start:
    li   a0, 5
    li   a7, 93
    ecall
