# What goes wrong where a function that a patch replaces quiesces deep inside: work calls wait by its first instruction,
# and wait quiesces. So the return to work leads to the fifth byte of work, and there a patch puts the second half of its
# jump.
        .text
        .globl _start
_start: call work
        li   a7, 0             # exit with the number in a0
        ecall

        .globl work
work:   jal  t0, wait          # one instruction: the return leads to work + 4
        li   a0, 1
        ret
        .size work

wait:   li   a7, 6             # quiesce
        ecall
        jalr zero, 0(t0)
