# Makes calls one after another.
    .globl _start
_start:
    li   a0, 1          # write four bytes of the ELF header
    lui  a1, 0x10
    li   a2, 4
    li   a7, 64
    ecall
    li   a0, 3          # to a descriptor that isn't there
    lui  a1, 0x10
    li   a2, 4
    li   a7, 64
    ecall
    li   a0, 1          # across the end of the page
    lui  a1, 0x11
    addi a1, a1, -2
    li   a2, 4
    li   a7, 64
    ecall
    li   a0, 1          # no bytes
    lui  a1, 0x10
    li   a2, 0
    li   a7, 64
    ecall
    li   a7, 124        # sched_yield
    ecall
    li   a7, 172        # getpid
    ecall
    li   a7, 178        # gettid
    ecall
    li   a7, 999        # no call
    ecall
    li   a0, 8          # set_tid_address
    li   a7, 96
    ecall
    li   a0, 2          # write to the error output
    lui  a1, 0x10
    li   a2, 4
    li   a7, 64
    ecall
    li   a0, 0          # exit
    li   a7, 93
    ecall
