# Each hart puts a letter and counts it, twice; before each round it moves to the newest generation.
        .text
        .globl _start
_start: li   s0, 2             # rounds to go
round:  li   a7, 6             # quiesce
        ecall
        call letter            # a letter in a0
        li   a7, 1             # put the byte in a0
        ecall
        la   t0, count
        li   t1, 1
        amoadd.d zero, t1, (t0)
        addi s0, s0, -1
        bne  s0, zero, round
        li   a7, 4             # the number of the own generation in a0
        ecall
        li   a7, 0             # exit with the number in a0
        ecall

        .globl letter
letter: li   a0, 0x41          # an A
        ret
        .size letter

        .data
count:  .dword 0
