# Hart 0 puts a digit and quiesces, ten times; hart 1 quiesces once, and puts a digit.
        .text
        .globl _start
_start: li   s0, 10            # rounds to go
        beq  a0, zero, round
        li   s0, 1
        li   a7, 6             # quiesce
        ecall
round:  call digit             # a digit in a0
        li   a7, 1             # put the byte in a0
        ecall
        li   a7, 6             # quiesce
        ecall
        addi s0, s0, -1
        bne  s0, zero, round
        li   a7, 0             # exit with the generation that the last quiesce gave
        ecall

        .globl digit
digit:  li   a0, 0x30
        ret
        .size digit
